#compdef osbytes
# zsh completion of osbytes(1)
local curcontext=$curcontext state line
typeset -A opt_args
_arguments -C '1:command:((units\:"the code units, one on each line" raw\:"the bytes of the string that has these units" find\:"the first index of a text" split\:"the pieces between a text" chunks\:"the parts that are text and those that aren'\''t" quote\:"the escape of the string" unquote\:"the bytes of the string that has this escape"))' '*::operand:->operands' && return
case $words[1] in
    units) _arguments '1:PLATFORM:(unix windows wasm)' ;;
    raw) _arguments '1:PLATFORM:(unix windows wasm)' ;;
    find) _arguments '1:PLATFORM:(unix windows wasm)' '2:PAT:' ;;
    split) _arguments '1:PLATFORM:(unix windows wasm)' '2:PAT:' ;;
    chunks) _arguments '1:PLATFORM:(unix windows wasm)' ;;
    quote) _arguments '1:PLATFORM:(unix windows wasm)' ;;
    unquote) _arguments '1:PLATFORM:(unix windows wasm)' ;;
esac
