# Completion of koika's commands, options and files for bash: source this file.

# The options of a command.
_koika_options() {
    case $1 in
        sim) echo "--cycles --summary --engine --workers --journal" ;;
        btorsim | aigsim) echo "--cycles --summary" ;;
        recheck | waves) echo "--cycles" ;;
        why) echo "--cycle --cycles --rule" ;;
        profile) echo "--cycles --strict" ;;
        verilog) echo "--reset --registers" ;;
        obligation | certify) echo "--rule" ;;
    esac
}

# The files that a word may become: those that the command reads, and folders; all files where there is none of these.
_koika_files() {
    local name all=() fitting=()
    mapfile -t all < <(compgen -f -- "$2" | sort)
    for name in "${all[@]}"; do
        case $1:$name in
            btorsim:*.btor2 | aigsim:*.aag) fitting+=("$name") ;;
            btorsim:* | aigsim:*) [ ! -d "$name" ] || fitting+=("$name") ;;
            *:*.koika) fitting+=("$name") ;;
            *) [ ! -d "$name" ] || fitting+=("$name") ;;
        esac
    done
    if [ "${#fitting[@]}" = 0 ]; then fitting=("${all[@]}"); fi
    COMPREPLY+=("${fitting[@]}")
    compopt -o filenames 2>/dev/null
}

_koika() {
    local word=${COMP_WORDS[COMP_CWORD]} before=${COMP_WORDS[COMP_CWORD - 1]} command=${COMP_WORDS[1]-} words='' given
    COMPREPLY=()
    if [ "$COMP_CWORD" = 1 ]; then
        words="check print sim compile btorsim gen aiger aigsim recheck why profile waves step verilog lint obligation certify help --help --version --unproved"
    else
        case $command:$before in
            *:"<")
                _koika_files "$command" "$word"
                return ;;
            *:--engine) words="plain circuit" ;;
            *:--cycle | *:--cycles | *:--workers | *:--rule) return ;;
            gen:*) words="1 10 100" ;;
            help:*) words="check print sim compile btorsim gen aiger aigsim recheck why profile waves step verilog lint obligation certify" ;;
            *)
                # each option is given once
                words=" $(_koika_options "$command") "
                for given in "${COMP_WORDS[@]:2:COMP_CWORD-2}"; do words=${words/ $given / }; done
                case $word in -*) ;; *) _koika_files "$command" "$word" ;; esac ;;
        esac
    fi
    mapfile -t -O "${#COMPREPLY[@]}" COMPREPLY < <(compgen -W "$words" -- "$word")
}
complete -F _koika -o bashdefault koika ./koika
