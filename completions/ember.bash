# Completion of ember for bash 4 or newer. tools/check_docs compares its commands and options with the sources.

_ember() {
    local word=$2 option='' ended='' values='' options each
    local files='*.[oO][bB][jJ]' most=64
    COMPREPLY=()
    if ((COMP_CWORD == 1)); then
        mapfile -t COMPREPLY < <(compgen -W 'bool faces at voxels pairs slice demo' -- "$word")
        return
    fi
    case ${COMP_WORDS[1]} in
        bool) options='--expr --workers --places --report' ;;
        faces) options='--places' most=1 ;;
        at) options='--point --expr --places' ;;
        voxels) options='--expr --size --workers --places' ;;
        pairs) options='--workers --places' ;;
        slice) options='--at' most=1 files='*' ;;
        demo) options='--workers' most=0 ;;
        *) return ;;
    esac

    # what stands before the word: the options that are still free, how many files may follow, an option without its value
    for each in "${COMP_WORDS[@]:2:COMP_CWORD-2}"; do
        if [[ $each == '=' ]]; then
            continue # bash splits --places=2 into three words
        elif [[ -n $option ]]; then
            option=''
        elif [[ -z $ended && $each == -- ]]; then
            ended=yes
        elif [[ -z $ended && $each == -* ]]; then
            options=${options/"${each%%=*}"/}
            [[ $each == --report || $each == *=* ]] || option=$each
        else
            most=$((most - 1))
        fi
    done

    if [[ -n $option ]]; then
        case $option in
            --places) values='0 1 2 3' ;;
            --size) values='4 5 6 7 8 9 10 11 12' ;;
        esac
        compopt -o nosort 2>/dev/null
        mapfile -t COMPREPLY < <(compgen -W "$values" -- "$word")
    elif [[ -z $ended && $word == -* ]]; then
        mapfile -t COMPREPLY < <(compgen -W "$options" -- "$word")
    elif ((most > 0)); then
        compopt -o filenames 2>/dev/null
        mapfile -t COMPREPLY < <(compgen -f -X "!$files" -- "$word"; compgen -d -- "$word")
    fi
}
complete -F _ember ember
