# Completions of rrv for bash. Source this file: . docs/rrv.bash

# The words that begin as the word that is typed.
_rrv_words() {
    mapfile -t COMPREPLY < <(compgen -W "$1" -- "$word")
}

# The files that begin so.
_rrv_files() {
    compopt -o filenames 2> /dev/null
    mapfile -t COMPREPLY < <(compgen -f -- "$word")
}

# How many words stand between the command and the word that is typed, without options and their values.
_rrv_place() {
    local at=2
    place=0
    while ((at < COMP_CWORD)); do
        case ${COMP_WORDS[at]} in
            --quantum | --every | --input | --seed | --name | --choices | --then | --limit | --times | --at | --memory)
                ((at += 1))
                if [[ ${COMP_WORDS[at]} == = ]]; then ((at += 1)); fi
                if [[ ${COMP_WORDS[at + 1]} == : ]]; then ((at += 2)); fi
                ;;
            -*) ;;
            *) ((place += 1)) ;;
        esac
        ((at += 1))
    done
}

_rrv() {
    local word=${COMP_WORDS[COMP_CWORD]} before=${COMP_WORDS[COMP_CWORD - 1]} options='-h --help' place
    local commands='new record check list elf copy dump verify replay back last choices core ask help'
    COMPREPLY=()
    # Bash parts an option and its value at the '=', and the two numbers of --memory at the ':'.
    if [[ $word == = ]]; then
        word=
    elif [[ $before == = ]]; then
        before=${COMP_WORDS[COMP_CWORD - 2]}
    fi
    if ((COMP_CWORD == 1)); then
        _rrv_words "$commands -V --version $options"
        return
    fi
    case ${COMP_WORDS[1]} in
        new | check | elf | copy | help) ;;
        list) options+=' --long --progress' ;;
        dump) options+=' --places --trace-events --progress' ;;
        record) options+=' --quantum --every --input --seed --name --choices --then --limit --fail --upgrade --progress' ;;
        verify) options+=' --long --progress' ;;
        choices | core) options+=' --progress' ;;
        ask) options+=' --short --progress' ;;
        replay) options+=' --at --memory --progress' ;;
        back) options+=' --memory --progress' ;;
        last) options+=' --word --times --short --memory --progress' ;;
        *) return ;;
    esac
    case $before in
        --input | --choices) _rrv_files && return ;;
        --then) _rrv_words 'turns none' && return ;;
        --at) _rrv_words end && return ;;
        --every) _rrv_words auto && return ;;
        --quantum | --seed | --name | --limit | --times | --memory | :) return ;;
    esac
    if [[ $word == -* ]]; then
        _rrv_words "$options"
        return
    fi
    _rrv_place
    case ${COMP_WORDS[1]}:$place in
        help:0) _rrv_words "$commands" ;;
        help:*) ;;
        *:0 | record:* | core:3 | copy:2) _rrv_files ;;
        back:2 | last:2 | core:2) _rrv_words end ;;
    esac
}

complete -F _rrv rrv
