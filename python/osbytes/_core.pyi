# The functions of _core.c, whose table lists them: what each takes and returns is stated where the package calls it.
from typing import Any

def __getattr__(name: str) -> Any: ...
