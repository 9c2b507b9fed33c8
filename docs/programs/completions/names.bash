# bash completion of names(1)
_names() {
    local word=${COMP_WORDS[COMP_CWORD]} command='' words='' count=0 i at=$((COMP_CWORD - 1))
    COMPREPLY=()
    # bash takes = as a word of its own
    [ "$word" != = ] || word=
    [ "${COMP_WORDS[at]}" != = ] || at=$((at - 1))
    case ${COMP_WORDS[at]} in
        --globs-from|--ignore) compopt -o default 2>/dev/null; return ;;
        --glob|--name|--exclude|--max) return ;;
    esac
    for ((i = 1; i < COMP_CWORD; i++)); do
        case ${COMP_WORDS[i]} in
            --glob|--globs-from|--name|--exclude|--ignore|--max) [ "${COMP_WORDS[i + 1]}" != = ] || ((i++)); ((i++)) ;;
            =) ((i++)) ;;
            -*) ;;
            *) command=${command:-${COMP_WORDS[i]}}; ((count++)) ;;
        esac
    done
    case $command:$count:$word in
        list:*:-*) words='--glob --globs-from --name --exclude --ignore -v --invert -i --ignore-case --exit-status --sh --sh-line --lines --unterminated --max' ;;
        filter:*:-*) words='--glob --globs-from --name --exclude --ignore -v --invert -i --ignore-case --exit-status --lines --unterminated --max' ;;
        why:*:-*) words='--glob --name --ignore -i --ignore-case --exit-status --lines --unterminated --max' ;;
        join:*:-*) words='--sh --sh-line --lines --unterminated --empty --max' ;;
        check:*:-*) words='--lines --unterminated --max' ;;
        tar:*:-*) words='--lines --max' ;;
        :*:-*) words='--lines --max -h --help -V --version' ;;
        :0:*) words='list filter why join check tar' ;;
        list:1:*|filter:1:*|why:1:*|join:1:*|check:1:*|tar:1:*) words='unix windows wasm' ;;
    esac
    mapfile -t COMPREPLY < <(compgen -W "$words" -- "$word")
}
complete -F _names names
