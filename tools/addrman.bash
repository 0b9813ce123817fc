# Completion of addrman's commands, options and files for bash.

# Completes files and folders.
_addrman_files() {
    compopt -o filenames
    mapfile -t COMPREPLY < <(compgen -f -- "${1//\\/}")
}

_addrman() {
    local word=${COMP_WORDS[COMP_CWORD]} before=${COMP_WORDS[COMP_CWORD - 1]}
    local commands="replay opener limit show picture raw info groups risk from-raw compile decompile diff check lookup address ban unban banned bans gen trial help version"
    local at=1
    if [[ ${COMP_WORDS[1]} == -C || ${COMP_WORDS[1]} == --dir && ${COMP_WORDS[2]} != = ]]; then
        at=3
    elif [[ ${COMP_WORDS[1]} == --dir ]]; then
        at=4
    fi
    # Bash splits --net=main at the equals sign.
    if [[ $word == = ]]; then
        word=
    elif [[ $before == = ]]; then
        before=${COMP_WORDS[COMP_CWORD - 2]}
    fi
    if ((COMP_CWORD < at)) && ((COMP_CWORD > 1)); then
        compopt -o filenames
        mapfile -t COMPREPLY < <(compgen -d -- "${word//\\/}")
        return
    fi
    if ((COMP_CWORD == at)); then
        local options="--help --version"
        ((at == 1)) && options="-C --dir $options"
        [[ $word == -* ]] && commands=$options
        mapfile -t COMPREPLY < <(compgen -W "$commands" -- "$word")
        return
    fi
    local command=${COMP_WORDS[at]} tables="--net --magic --core --peers --asmap" options=--help
    case $before in
        --net) options="main test testnet4 signet regtest" ;;
        --by) options="network source group age" ;;
        --raw) options="-" ;;
        --key-file | --asmap | --bans) _addrman_files "$word" && return ;;
        --peers | --anchors)
            # Of diff and show they may lack their file.
            [[ $word == -* ]] || { _addrman_files "$word" && return; }
            ;;
    esac
    if [[ $options == --help ]]; then
        case $command in
            replay) options+=" --key --key-file --net --magic --core" ;;
            opener) options+=" --key --key-file --net --magic --core --exempt --services --skip-bad-ports" ;;
            show) options+=" --net --magic --no-key --core --peers --anchors" ;;
            from-raw) options+=" --key --key-file --net --magic --core --asmap" ;;
            risk) options+=" source peer network - --raw $tables" ;;
            picture) options+=" --by --raw --mark $tables" ;;
            info | groups) options+=" --raw $tables" ;;
            raw | diff) options+=" $tables" ;;
            check | lookup | decompile | address) options+=" --asmap" ;;
            ban | unban) options+=" --core" ;;
            banned | bans) options+=" --bans --core" ;;
            help | --help | -h) options=$commands ;;
        esac
    fi
    mapfile -t COMPREPLY < <(compgen -W "$options" -- "$word")
}

complete -F _addrman addrman
