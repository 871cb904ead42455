# Completion of ember-mesh for bash 4 or newer. tools/check_docs compares its commands and options with the sources.

_ember_mesh() {
    local word=$2 option='' options each files=('*.[sS][tT][lL]' '*.[oO][bB][jJ]' '*.[pP][lL][yY]' '*.[oO][fF][fF]')
    COMPREPLY=()
    if ((COMP_CWORD == 1)); then
        mapfile -t COMPREPLY < <(compgen -W 'union difference intersection bool snap export view info help --help -h --version' -- "$word")
        return
    fi
    case ${COMP_WORDS[1]} in
        bool) options=' --expr -o --format --step --workers --digits --view --keep --place --turn --json --quiet --help -h ' ;;
        union | difference | intersection) options=' -o --format --step --workers --digits --view --keep --place --turn --json --quiet --help -h ' ;;
        snap) options=' -d --step --json --quiet --help -h ' ;;
        export) options=' --scene -o --format --digits --view --json --quiet --help -h ' ;;
        view) options=' -o --json --quiet --help -h ' ;;
        info) options=' --json --help -h ' ;;
        *) return ;;
    esac

    # what stands before the word: the options that are still free, an option without its value
    for each in "${COMP_WORDS[@]:2:COMP_CWORD-2}"; do
        if [[ $each == '=' ]]; then
            continue # bash splits --step=nice into three words
        elif [[ -n $option ]]; then
            option=''
        elif [[ $each == -?* ]]; then
            [[ $each == --place* || $each == --turn* ]] || options=${options/" ${each%%=*} "/ }
            [[ $each == --quiet || $each == --json || $each == --help || $each == -h || $each == *=* ]] || option=$each
        fi
    done

    if [[ $option == --step ]]; then
        mapfile -t COMPREPLY < <(compgen -W 'nice finest' -- "$word")
    elif [[ $option == --format ]]; then
        mapfile -t COMPREPLY < <(compgen -W 'stl obj ply off glb' -- "$word")
    elif [[ -z $option && $word == -* ]]; then
        mapfile -t COMPREPLY < <(compgen -W "$options" -- "$word")
    elif [[ -z $option || $option == -[od] || $option == --scene || $option == --view || $option == --keep ]]; then
        case ${COMP_WORDS[1]}$option in
            view-o | *--view) files=('*.[hH][tT][mM]' '*.[hH][tT][mM][lL]') ;;
            *-o) files=("${files[@]}" '*.[gG][lL][bB]') ;;
            *--scene) files=('*.[jJ][sS][oO][nN]') ;;
            *-d | *--keep) files=() ;; # folders alone
            export) files=('*') ;; # a document has any name
        esac
        compopt -o filenames 2>/dev/null
        mapfile -t COMPREPLY < <(
            for each in "${files[@]}"; do compgen -f -X "!$each" -- "$word"; done
            compgen -d -- "$word"
        )
    fi
}
complete -F _ember_mesh ember-mesh
