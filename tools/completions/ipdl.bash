# bash completion for ipdl

# Prints the options of a command. The empty name is that of the command that is only files.
_ipdl_options() {
    case $1 in
        '') echo "-s --sync-msg-list --path --help --version" ;;
        run | chart) echo "-s --sync-msg-list --path --schedule --limit --die --help" ;;
        frames) echo "-s --sync-msg-list --path --to --help" ;;
        gen) echo "--actors --help" ;;
        feed) echo "-s --sync-msg-list --path --limit --side --help" ;;
        relay) echo "-s --sync-msg-list --path --die --limit --help" ;;
        audit) echo "-s --sync-msg-list --path --limit --help" ;;
        waits) echo "-s --sync-msg-list --path --help" ;;
        explore) echo "-s --sync-msg-list --path --limit --ways --help" ;;
    esac
}

_ipdl() {
    local word=${COMP_WORDS[COMP_CWORD]} before=${COMP_WORDS[COMP_CWORD - 1]} name=
    local commands="run frames gen feed relay audit waits chart explore"
    COMPREPLY=()
    if [ "$COMP_CWORD" -gt 1 ]; then
        case " $commands help version " in
            *" ${COMP_WORDS[1]} "*) name=${COMP_WORDS[1]} ;;
        esac
    fi
    case $name in
        help)
            [ "$COMP_CWORD" -gt 2 ] || mapfile -t COMPREPLY < <(compgen -W "compile $commands" -- "$word")
            return
            ;;
        version) return ;;
    esac
    case $before in
        --side)
            mapfile -t COMPREPLY < <(compgen -W "parent child" -- "$word")
            return
            ;;
        --die)
            mapfile -t COMPREPLY < <(compgen -W "parent: child:" -- "$word")
            return
            ;;
        --to)
            mapfile -t COMPREPLY < <(compgen -W "2" -- "$word")
            return
            ;;
        --schedule | --limit | --ways | --actors) return ;;
        --path)
            mapfile -t COMPREPLY < <(compgen -d -- "$word")
            return
            ;;
        -s | --sync-msg-list)
            mapfile -t COMPREPLY < <(compgen -f -- "$word")
            return
            ;;
    esac
    case $word in
        -*) mapfile -t COMPREPLY < <(compgen -W "$(_ipdl_options "$name")" -- "$word") ;;
        *)
            if [ -n "$name" ]; then
                mapfile -t COMPREPLY < <(compgen -f -- "$word")
            elif [ "$COMP_CWORD" -eq 1 ]; then
                mapfile -t COMPREPLY < <(compgen -W "$commands help version" -- "$word"; compgen -f -X '!*.ipdl*' -- "$word"; compgen -d -- "$word")
            else
                mapfile -t COMPREPLY < <(compgen -f -X '!*.ipdl*' -- "$word"; compgen -d -- "$word")
            fi
            ;;
    esac
}

complete -o filenames -F _ipdl ipdl
