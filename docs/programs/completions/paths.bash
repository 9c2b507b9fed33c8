# bash completion of paths(1)
_paths() {
    local word=${COMP_WORDS[COMP_CWORD]} command='' words='' count=0 i at=$((COMP_CWORD - 1))
    COMPREPLY=()
    # bash takes = as a word of its own
    [ "$word" != = ] || word=
    [ "${COMP_WORDS[at]}" != = ] || at=$((at - 1))
    case ${COMP_WORDS[at]} in
    esac
    for ((i = 1; i < COMP_CWORD; i++)); do
        case ${COMP_WORDS[i]} in
            =) ((i++)) ;;
            -*) ;;
            *) command=${command:-${COMP_WORDS[i]}}; ((count++)) ;;
        esac
    done
    case $command:$count:$word in
        components:*:-*) words='--lines --unterminated --keep-going' ;;
        parent:*:-*) words='--lines --unterminated --keep-going' ;;
        name:*:-*) words='--lines --unterminated --keep-going' ;;
        stem:*:-*) words='--lines --unterminated --keep-going' ;;
        extension:*:-*) words='--lines --unterminated --keep-going' ;;
        with-extension:*:-*) words='--lines --unterminated --keep-going' ;;
        common:*:-*) words='--lines --unterminated --keep-going' ;;
        normalize:*:-*) words='--lines --unterminated --keep-going' ;;
        clean:*:-*) words='--lines --unterminated --keep-going' ;;
        starts-with:*:-*) words='--lines --unterminated --keep-going' ;;
        join:*:-*) words='--checked --keep-separator --lines --unterminated --keep-going' ;;
        relative:*:-*) words='--lines --unterminated --keep-going' ;;
        absolute:*:-*) words='--lines --unterminated --keep-going' ;;
        convert:*:-*) words='--lines --unterminated --keep-going' ;;
        :*:-*) words='--lines --unterminated --keep-going -h --help -V --version' ;;
        :0:*) words='components parent name stem extension with-extension common normalize clean starts-with join relative absolute convert' ;;
        components:1:*|parent:1:*|name:1:*|stem:1:*|extension:1:*|with-extension:1:*|common:1:*|normalize:1:*|clean:1:*|starts-with:1:*|join:1:*|relative:1:*|absolute:1:*|convert:1:*) words='unix windows wasm' ;;
        convert:2:*) words='unix windows wasm' ;;
        starts-with:2:*|join:2:*|relative:2:*|absolute:2:*) compopt -o default 2>/dev/null; return ;;
    esac
    mapfile -t COMPREPLY < <(compgen -W "$words" -- "$word")
}
complete -F _paths paths
