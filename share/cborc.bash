# Completion of cborc for bash: source this file, or copy it as cborc to bash-completion's folder.
_cborc() {
    local word=${COMP_WORDS[COMP_CWORD]} before=${COMP_WORDS[COMP_CWORD-1]} command=${COMP_WORDS[1]}
    local commands="show events check canon compare"
    local shared="--depth --bytes --keys --hex --quiet --explain --help"
    COMPREPLY=()
    # Of --order=by bash makes three words.
    [[ $before == = ]] && before=${COMP_WORDS[COMP_CWORD-2]}
    [[ $word == = ]] && word=
    if ((COMP_CWORD == 1)); then
        COMPREPLY=($(compgen -W "$commands help --help --version" -- "$word"))
        return
    fi
    if [[ $command == help ]]; then
        ((COMP_CWORD == 2)) && COMPREPLY=($(compgen -W "$commands" -- "$word"))
        return
    fi
    case $before in
        --order) COMPREPLY=($(compgen -W "bytewise length length-first" -- "$word")); return ;;
        --keys) COMPREPLY=($(compgen -W "any basic" -- "$word")); return ;;
        --depth | --bytes) return ;;
    esac
    if [[ $word != -* ]]; then
        mapfile -t COMPREPLY < <(compgen -f -- "$word")
        return
    fi
    case $command in
        show) COMPREPLY=($(compgen -W "--indent --seq $shared" -- "$word")) ;;
        check) COMPREPLY=($(compgen -W "--strict --seq --order $shared" -- "$word")) ;;
        canon) COMPREPLY=($(compgen -W "--hex-out --seq --order $shared" -- "$word")) ;;
        events) COMPREPLY=($(compgen -W "--annotate --seq $shared" -- "$word")) ;;
        compare) COMPREPLY=($(compgen -W "$shared" -- "$word")) ;;
    esac
}
complete -o filenames -F _cborc cborc
