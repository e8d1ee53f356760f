# Completion of the words of yew in bash. Source this file, or copy it as `yew` to a folder of bash-completion.
# Where a number is due the ends of its range are offered.

_yew() {
    local current=${COMP_WORDS[COMP_CWORD]} previous=${COMP_WORDS[COMP_CWORD - 1]}
    local job=${COMP_WORDS[1]:-} second=${COMP_WORDS[2]:-}
    local files=0 options=() words=() word given place
    COMPREPLY=()

    case $job in
        knapsack | tsp | flow) files=1 ;;
        subgraph) files=2 ;;
        semigroups | make) files=0 ;;
        *) [ "$COMP_CWORD" = 1 ] || return 0 ;;
    esac

    if [ "$COMP_CWORD" = 1 ]; then
        words=(knapsack tsp subgraph semigroups flow make)
    elif [ "$COMP_CWORD" = 2 ]; then
        case $job in
            make) words=(knapsack tsp lad) ;;
            *) words=(sequential depth budget steal ordered) ;;
        esac
    elif [ "$COMP_CWORD" -lt $((3 + files)) ]; then
        compopt -o filenames 2>/dev/null
        while IFS= read -r word; do
            COMPREPLY+=("$word")
        done < <(compgen -f -- "$current")
        return 0
    else
        case $previous in
            --workers) words=(1 64) ;;
            --depth) words=(1 255) ;;
            --budget) words=(1 4294967295) ;;
            --chunk) words=(one all) ;;
            --target) words=(0 1099511627774) ;;
            --gap) words=(0 1099511627774) ;;
            --genus) words=(0 40) ;;
            --seed) words=(0 18446744073709551615) ;;
            --size)
                case $second in
                    knapsack) words=(1 256) ;;
                    tsp) words=(2 60) ;;
                    lad) words=(0 1024) ;;
                esac
                ;;
            *)
                case $job in
                    make) options=(--seed --size) ;;
                    *) options=(--report --audit) ;;
                esac
                case $job in
                    knapsack) options+=(--target) ;;
                    tsp) options+=(--near --span) ;;
                    semigroups) options+=(--genus) ;;
                esac
                case $job:$second in
                    make:knapsack | make:tsp) options+=(--solve) ;;
                    *:depth | *:ordered) options+=(--workers --depth) ;;
                    *:budget) options+=(--workers --budget) ;;
                    *:steal) options+=(--workers --chunk) ;;
                esac
                case $job:$second in
                    *:ordered) ;;
                    knapsack:* | tsp:* | flow:*) options+=(--gap) ;;
                esac
                # (each option stands at most once, and of a target and a gap one)
                for word in "${options[@]}"; do
                    given=
                    for ((place = 3 + files; place < COMP_CWORD; place++)); do
                        case $word:${COMP_WORDS[place]} in
                            "$word:$word" | --target:--gap | --gap:--target) given=yes ;;
                        esac
                    done
                    [ -n "$given" ] || words+=("$word")
                done
                ;;
        esac
    fi

    for word in "${words[@]}"; do
        [[ $word == "$current"* ]] && COMPREPLY+=("$word")
    done
    return 0
}

complete -F _yew yew
