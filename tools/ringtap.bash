# Completion of ringtap's words for bash: `source tools/ringtap.bash`.
# Made by tools/make_man.py from the documents.
_ringtap() {
    local files=0
    COMPREPLY=()
    if [ "$COMP_CWORD" -eq 1 ]; then
        mapfile -t COMPREPLY < <(compgen -W 'check replay capture make forward send replay2' -- "$2")
        return
    fi
    case ${COMP_WORDS[1]} in
    check) files=1 ;;
    replay) files=2 ;;
    capture) files=1 ;;
    make) files=1 ;;
    forward) files=1 ;;
    send) files=1 ;;
    replay2) files=2 ;;
    esac
    if [ "$COMP_CWORD" -le $((files + 1)) ]; then
        mapfile -t COMPREPLY < <(compgen -f -- "$2")
    fi
}
complete -o filenames -F _ringtap ringtap
