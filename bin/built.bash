# Shared by the commands of bin/ and dev/ that are in bash: the path of the repository, and its proved programs.
top=$(cd "$(dirname "${BASH_SOURCE[0]}")/.." && pwd)

# Prints the head of the running command's file and ends, if the first word asks for help.
help_if_asked() {
    case ${1:-} in
    -h | --help)
        awk 'NR > 1 { if (!/^#/) exit; sub(/^# ?/, ""); print }' "$0"
        exit 0
        ;;
    esac
}

# Ends with status 70 if the toolchain isn't on the path.
need_rt() {
    command -v rt >/dev/null && return
    echo "$(realpath --relative-to="$top" "$0"): the command rt of the Rattle toolchain isn't on the path; README.md, \"Two commands\", says what it is" >&2
    exit 70
}

# Prints a crate and the crates of the repository that it depends on, the lowest first, as crates.txt lists them.
stack_of() {
    awk -F ': *' -v crate="$1" '
        /^[a-z]/ { sub(/ .*/, "", $1); uses[$1] = $2; names[++count] = $1 }
        END {
            needed[crate]
            for (at = count; at > 0; at--)
                if (names[at] in needed)
                    for (number = split(uses[names[at]], below, " "); number > 0; number--) needed[below[number]]
            for (at = 1; at <= count; at++)
                if (names[at] in needed) print names[at]
        }' "$top/crates.txt"
}

# Prints the path of a crate's proved program.
program_of() {
    echo "$top/crates/$1/out/$1"
}

# Returns 0 if this program of a crate (by default its own) exists and is newer than all its sources.
is_built() {
    local program=${2:-$(program_of "$1")} crate folders=()
    [ -x "$program" ] || return
    for crate in $(stack_of "$1"); do
        folders+=("$top/crates/$crate/src" "$top/crates/$crate/specs" "$top/crates/$crate/proofs")
    done
    [ -z "$(find "${folders[@]}" "$top/crates.txt" -type f -newer "$program" -print -quit 2>/dev/null)" ]
}

# Runs this command in a crate's folder, and prints the crate and the seconds on standard error. Ends with status 70 if it fails.
prove() {
    local crate=$1 where=$2 began=$SECONDS log
    shift 2
    log=$(mktemp)
    printf '%s: %s .. ' "$where" "$crate" >&2
    if (cd "$top/crates/$crate" && "$@") </dev/null >"$log" 2>&1; then
        echo "proved in $((SECONDS - began)) s" >&2
        rm -f "$log"
    else
        echo "not proved" >&2
        cat "$log" >&2
        rm -f "$log"
        exit 70
    fi
}

# Prints the exit status of a crate's program with an empty input and without words: 3 for a fault of line 1, 2 for missing words.
status_of() {
    case $1 in
    example*) echo 0 ;;
    meet) echo 3 ;;
    *) echo 2 ;;
    esac
}

# Builds a crate's program, and runs it once.
make_program() {
    local status=0
    rt run || status=$?
    [ "$status" -eq "$(status_of "$1")" ] && [ -x "out/$1" ] && touch "out/$1"
}

# Proves a crate's program and all crates that it depends on, and builds it, unless it is newer than its sources.
build() {
    local crate number=0 stack
    is_built "$1" && return
    need_rt
    mapfile -t stack < <(stack_of "$1")
    for crate in "${stack[@]}"; do
        number=$((number + 1))
        if [ "$crate" = "$1" ]; then
            prove "$crate" "$number of ${#stack[@]}" make_program "$1"
        else
            prove "$crate" "$number of ${#stack[@]}" rt lib
        fi
    done
}
