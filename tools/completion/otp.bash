# Completion of otp for bash. In ~/.bashrc: source FOLDER/tools/completion/otp.bash
# The first word is a command, and the second a grammar's file, but for `sample`; the third of `comprehend` is a lexicon, that
# of `check` an answer, and the fourth of `tableau` a rows file.
_otp() {
    local word=${COMP_WORDS[COMP_CWORD]}
    COMPREPLY=()
    case $COMP_CWORD in
        1) COMPREPLY=($(compgen -W "canon score generate show tableau once comprehend check sample" -- "$word")) ;;
        2)
            [[ ${COMP_WORDS[1]} != sample ]] || return 0
            mapfile -t COMPREPLY < <(compgen -f -X '!*.otp' -- "$word"; compgen -d -- "$word")
            compopt -o filenames 2> /dev/null
            ;;
        3)
            case ${COMP_WORDS[1]} in
                comprehend) mapfile -t COMPREPLY < <(compgen -f -X '!*.toml' -- "$word"; compgen -d -- "$word") ;;
                check) mapfile -t COMPREPLY < <(compgen -f -- "$word") ;;
                *) return 0 ;;
            esac
            compopt -o filenames 2> /dev/null
            ;;
        4)
            [[ ${COMP_WORDS[1]} == tableau ]] || return 0
            mapfile -t COMPREPLY < <(compgen -f -- "$word")
            compopt -o filenames 2> /dev/null
            ;;
    esac
}
complete -F _otp otp
complete -F _otp ./otp
