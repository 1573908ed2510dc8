# Completion of pigale's words in bash. A file's name is completed where one may stand: behind < or >, and of draw and check.
_pigale_words() {
    case $1 in
        --to) echo svg pdf png tex json graphml csv txt ;;
        --from) echo planar_code graph6 sparse6 ascii edges adjacency matrix graphml gexf gml dot pajek json ;;
        --method) echo round tutte schnyder shift convex bars rect ;;
        --labels) echo names numbers none ;;
        --style) echo equilateral faces dual crossing round tutte ;;
    esac
}

_pigale() {
    local word=${COMP_WORDS[COMP_CWORD]} before=${COMP_WORDS[COMP_CWORD - 1]} job= given=" " options= it
    COMPREPLY=()
    case $before in
        *[\<\>]) compopt -o default; return ;;
        =) before=${COMP_WORDS[COMP_CWORD - 2]} ;;
    esac
    [ "$word" = = ] && word=
    case $before in
        --form) COMPREPLY=($(compgen -W "text svg" -- "$word")); return ;;
        --size | --number | --side | --figure | --outer | --mark | -j) return ;;
        --to | --from | --method | --labels | --style) COMPREPLY=($(compgen -W "$(_pigale_words "$before")" -- "$word")); return ;;
        -o | --output | --log) compopt -o default; return ;;
    esac
    for it in "${COMP_WORDS[@]:1:COMP_CWORD-1}"; do
        case $it in
            count | shift | schnyder | bars | convex | rect | embed | gen | verify) job=${job:-$it} ;;
            draw | check | picture | page | all | recode | make) job=${job:-$it} ;;
            --*) given+="$it " ;;
        esac
    done
    case $job in
        "") options="count shift schnyder bars convex rect embed gen verify draw check picture page all recode make" ;;
        draw) options="-o --to --from --method --outer --style --labels --mark --dual --side"; [[ $word == -* ]] || compopt -o default ;;
        check) options="--scale"; [[ $word == -* ]] || compopt -o default ;;
        picture) options="--figure --side --no-numbers --style" ;;
        page) options="count shift schnyder bars convex rect embed verify --to --side --no-numbers --style" ;;
        all) options="count shift schnyder bars convex rect embed verify --form -j --log --resume" ;;
        make) options="complete cycle grid path prism quadrangle stacked tree triangulation wheel" ;;
        shift | schnyder | bars | convex | rect | embed) options="--form" ;;
        gen) options="--size --number" ;;
    esac
    for it in $options; do
        [[ $given == *" $it "* ]] || COMPREPLY+=($(compgen -W "$it" -- "$word"))
    done
}
complete -F _pigale pigale ./pigale
