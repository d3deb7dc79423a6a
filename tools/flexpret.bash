# Completion of bash for flexpret, flexpret-view, fp_budget and fp_report: commands, their options, values, and files.

# Sets `word`, which is completed, and `before`: the word before it, or the option whose value it is. Bash takes a `=` for a
# word of its own.
_flexpret_words() {
    word=${COMP_WORDS[COMP_CWORD]} before=${COMP_WORDS[COMP_CWORD - 1]}
    if [ "$word" = = ]; then
        word=''
    elif [ "$before" = = ]; then
        before=${COMP_WORDS[COMP_CWORD - 2]}
    fi
}

# Offers words of a list, as compgen has them.
_flexpret_offer() {
    mapfile -t COMPREPLY < <(compgen "$@" -- "$word")
}

# The options of the scripts themselves, in front of the command.
_flexpret_own='--quiet --unproved --use --version --help'

# Whether what is completed is the command: only the scripts' own options stand before it.
_flexpret_is_first() {
    local at skipped=''
    for ((at = 1; at < COMP_CWORD; at++)); do
        case $skipped${COMP_WORDS[at]} in
        --quiet | --model | --unproved) ;;
        --use) skipped='file' ;;
        file*) skipped='' ;;
        *) return 1 ;;
        esac
    done
    [ -z "$skipped" ]
}

_flexpret() {
    local word before command options=''
    COMPREPLY=()
    _flexpret_words
    if _flexpret_is_first; then
        case $word in
        -*) _flexpret_offer -W "--model $_flexpret_own" ;;
        *) _flexpret_offer -W 'run dump phases solo check bound calls asm elf selfrun disasm' ;;
        esac
        return
    fi
    case $before in
    --thread)
        _flexpret_offer -W '0 1 2 3 4 5 6 7'
        return
        ;;
    --cycles | --from | --to | selfrun) return ;;
    esac
    for command in "${COMP_WORDS[@]:1}"; do
        case $command in
        run | solo) options='--thread --cycles' ;;
        dump | phases) options='--cycles' ;;
        check) options='--thread --cycles --trace' ;;
        bound) options='--thread --from --to --elf --map' ;;
        calls) options='--thread --from --to --routines --elf --map' ;;
        asm) options='-o --listing --map' ;;
        elf) options=-o ;;
        disasm) options='--elf --map' ;;
        selfrun) ;;
        *) continue ;;
        esac
        break
    done
    case $word in
    -*) _flexpret_offer -W "$options --quiet" ;;
    *) _flexpret_offer -f ;;
    esac
}
complete -o filenames -F _flexpret flexpret ./flexpret

# Offers the options of the command that is there.
_flexpret_view_options() {
    local command options='--from --to --konata --vcd --svg'
    for command in "${COMP_WORDS[@]:1}"; do
        [ "$command" != turns ] || options+=' --state --progress'
        [ "$command" != show ] ||
            options+=' --around --before --after --within --elf --map --src --threads --mark --zoom --stages --view --flexpret'
    done
    _flexpret_offer -W "$options"
}

_flexpret_view() {
    local word before
    COMPREPLY=()
    _flexpret_words
    if _flexpret_is_first; then
        case $word in
        -*) _flexpret_offer -W "$_flexpret_own" ;;
        *) _flexpret_offer -W 'turns show' ;;
        esac
        return
    fi
    case $before in
    --progress) _flexpret_offer -W 'before all' ;;
    --from | --to | --around | --before | --after | --within | --threads | --mark | --zoom) ;;
    *)
        case $word in
        -*) _flexpret_view_options ;;
        *) _flexpret_offer -f ;;
        esac
        ;;
    esac
}
complete -o filenames -F _flexpret_view flexpret-view ./flexpret-view

# Offers the options of a tool, values of some, and files.
_flexpret_tool() {
    local word before
    COMPREPLY=()
    _flexpret_words
    case $before in
    --thread) _flexpret_offer -W '0 1 2 3 4 5 6 7' ;;
    --assume)
        local IFS=$'\n'
        _flexpret_offer -W $'no traps\nloop tables\nno configuration writes\nreached\nmoved work\nsame sources\nstack fits'
        ;;
    --function | --from-label | --to-label | --cycles | --ns | --runs | --window | --title) ;;
    *)
        case $word in
        -*) _flexpret_offer -W "$1" ;;
        *) _flexpret_offer -f ;;
        esac
        ;;
    esac
}

_fp_budget() {
    _flexpret_tool '--elf --src --setup --thread --function --period --all --from-label --to-label --cycles --ns --assume --runs --path --json --junit --flexpret --help'
}
complete -o filenames -F _fp_budget fp_budget tools/fp_budget

_fp_report() {
    _flexpret_tool '-o --elf --src --all --cycles --window --title --flexpret --help'
}
complete -o filenames -F _fp_report fp_report tools/fp_report
