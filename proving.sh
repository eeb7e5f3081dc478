# Sourced by ./sheet, ./library, ./page and ./slab: proving a crate can take minutes, and this says how far it is. They stand at the top of the repository.

# The crates that a crate is proved with, in the order in which they are proved, itself the last.
crates_of() { # NAME
    awk -v name="$1" '
        function walk(n,    words, k, m) {
            if (!(n in needs) || seen[n]++) return
            m = split(needs[n], words, " ")
            for (k = 1; k <= m; k++) walk(words[k])
            print n
        }
        { sub(/#.*/, "") }
        split($0, part, ":") == 2 { split(part[1], word, " "); needs[word[1]] = part[2] }
        END { walk(name) }' crates.txt
}

# Is a file that was made of a crate newer than all that the crate and those below it are made of?
is_new() { # FILE NAME
    local name folders=()
    [ -f "$1" ] || return 1
    for name in $(crates_of "$2"); do folders+=("crates/$name"); done
    [ -z "$(find crates.txt "${folders[@]}" \( -name out -o -name must-fail \) -prune -o -type f -newer "$1" -print -quit)" ]
}

# Runs a command of rt in the folder of the crate NAME, which proves it and what it is proved with. On standard error a line for each crate that it proves,
# and none for those that were proved before; what rt itself prints is shown where it fails.
proving() { # NAME COMMAND WORDS..
    local name=$1 order place crate=$1 line said=
    shift
    mapfile -t order < <(crates_of "$name")
    [ -d "crates/${order[0]}/out" ] || echo "proving ${#order[@]} crates, which can take ten minutes and more" >&2
    while IFS= read -r line; do
        said+=$line$'\n'
        case $line in
            'rt: chose --jobs '*' for '*) crate=${line##* for } ;;
            'logic=proved '*)
                for place in "${!order[@]}"; do
                    [ "${order[place]}" != "$crate" ] || echo "proved $crate, $((${#order[@]} - place - 1)) left" >&2
                done
                ;;
        esac
    done < <(cd "crates/$name" && "$@" 2>&1)
    wait $! || { printf '%s' "$said" >&2; return 1; }
}
