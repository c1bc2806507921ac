# Completion of heal for bash.

# The files after an @.
_heal_files() {
    case $1 in @*) compgen -P @ -f -- "${1#@}" ;; esac
}

_heal() {
    local word=${COMP_WORDS[COMP_CWORD]} command=${COMP_WORDS[1]} before=${COMP_WORDS[COMP_CWORD - 1]}
    if [ "$COMP_CWORD" -eq 1 ]; then
        COMPREPLY=($(compgen -W "check judge asm dis run help --help --version" -- "$word"))
        return
    fi
    case $command:$before in
        check:--profile) COMPREPLY=($(compgen -W "1 2" -- "$word")) ;;
        run:--workers) COMPREPLY=($(compgen -W "1 2 4 8 16" -- "$word")) ;;
        run:--names) COMPREPLY=($(compgen -W "4096 65536 1048576" -- "$word")) ;;
        judge:--name | judge:--first | judge:--second | judge:--word) COMPREPLY=() ;;
        check:*) COMPREPLY=($(compgen -W "--profile --explain --help" -- "$word") $(_heal_files "$word")) ;;
        judge:*) COMPREPLY=($(compgen -W "--name --first --second --word --explain --help" -- "$word") $(_heal_files "$word")) ;;
        dis:*) COMPREPLY=($(compgen -W "--help" -- "$word") $(_heal_files "$word")) ;;
        run:*) COMPREPLY=($(compgen -W "--workers --names --explain --help" -- "$word") $(compgen -f -- "$word")) ;;
        asm:*) COMPREPLY=($(compgen -W "--help" -- "$word") $(compgen -f -- "$word")) ;;
        help:*) COMPREPLY=($(compgen -W "check judge asm dis run refusals" -- "$word")) ;;
        *) COMPREPLY=($(compgen -W "--help" -- "$word")) ;;
    esac
}
complete -o filenames -F _heal heal
