# bash completion of osbytes(1)
_osbytes() {
    local word=${COMP_WORDS[COMP_CWORD]} command='' words='' count=0 i at=$((COMP_CWORD - 1))
    COMPREPLY=()
    # bash takes = as a word of its own
    [ "$word" != = ] || word=
    [ "${COMP_WORDS[at]}" != = ] || at=$((at - 1))
    case ${COMP_WORDS[at]} in
    esac
    for ((i = 1; i < COMP_CWORD; i++)); do
        case ${COMP_WORDS[i]} in
            =) ((i++)) ;;
            -*) ;;
            *) command=${command:-${COMP_WORDS[i]}}; ((count++)) ;;
        esac
    done
    case $command:$count:$word in
        :0:*) words='units raw find split chunks quote unquote' ;;
        units:1:*|raw:1:*|find:1:*|split:1:*|chunks:1:*|quote:1:*|unquote:1:*) words='unix windows wasm' ;;
    esac
    mapfile -t COMPREPLY < <(compgen -W "$words" -- "$word")
}
complete -F _osbytes osbytes
