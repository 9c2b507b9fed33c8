"""What a gate leaves out because the machine lacks a tool.

A tool that leaves something out prints a line, and writes it into the file that LEFT_OUT in the environment names.
./test --all keeps these lines in out/passed, and tools/release/release fails if there are any.
"""

import os


def leave_out(who: str, tool: str, what: str) -> None:
    """Prints what is left out for lack of a tool, and notes it for the gate."""
    line = f"{who}: left out, since there is no {tool}: {what}"
    print(line, flush=True)
    if place := os.environ.get("LEFT_OUT"):
        with open(place, "a", encoding="utf-8") as noted:
            noted.write(f"{line}\n")
