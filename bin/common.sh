# shellcheck shell=bash
# What the commands of bin/ share; each sources it. Which crates there are, and what each stands on, is read from crates.txt.

root=$(cd -- "$(dirname -- "$(readlink -f -- "${BASH_SOURCE[0]}")")/.." && pwd) || exit 3
declare -A below=() # of each crate, the crates of this repository that its line names

read_crates() {
    local name word words
    while IFS=: read -r name words; do
        name=${name%% *}
        [[ -n $name ]] || continue
        below[$name]=
        for word in $words; do
            [[ ! -d $root/crates/$word ]] || below[$name]+=" $word"
        done
    done < <(sed 's/#.*//' "$root/crates.txt")
}
read_crates

is_program() {
    [[ -v below[$1] && -f $root/crates/$1/src/main.rt ]]
}

# The crates of this repository that these stand on and these themselves, each once, lowest first.
with_below() {
    local seen=' ' crate
    for crate in "$@"; do
        add_with_below "$crate"
    done
}
add_with_below() {
    local crate
    for crate in ${below[$1]}; do
        add_with_below "$crate"
    done
    [[ $seen == *" $1 "* ]] || { seen+="$1 "; echo "$1"; }
}

# The line of a crate in crates.txt.
line_of() {
    sed -nE "s/#.*//; s/ +$//; /^$1($|[ :])/p" "$root/crates.txt"
}

# A checksum over what a program is made of, tests left out: where it is that of out/sources, what was built is proved from these sources.
sources_sum() {
    local crates
    mapfile -t crates < <(with_below "$1")
    {
        for crate in "${crates[@]}"; do
            line_of "$crate"
        done
        cd -- "$root/crates" && find "${crates[@]}" \( -name out -o -name tests -o -name must-fail \) -prune -o \
            -type f \( -name '*.rt' -o -name '*.antt' \) ! -name 'tests.rt' -print0 | LC_ALL=C sort -z | xargs -0 sha256sum
    } | sha256sum | cut -d ' ' -f 1
}

# Whether the program in out/ is that of these sources.
is_built() {
    local out=$root/crates/$1/out
    [[ -x $out/$1 && -f $out/sources && $(< "$out/sources") == "$(sources_sum "$1")" ]]
}

given=() # NAME=FILE for each file that a program reads by this name where it runs unproved

# start PROGRAM [WORD..] < INPUT: what was built of these sources, else the same sources unproved. Standard output and the exit status are
# the program's own; 3 where there is no answer, and why. No build is begun.
start() {
    ! is_built "$1" || exec "$root/crates/$1/out/$1" "${@:2}"
    start_unproved "$@"
}

start_unproved() {
    local program=$1 room input most=$((64 << 20)) ended it data=()
    shift
    for it in "${given[@]}"; do
        data+=(--data "$it")
    done
    if ! command -v rt > /dev/null; then
        echo "$program: not built, and rt isn't found: put the folder bin of the Rattle kit into PATH" >&2
        exit 3
    fi
    echo "$program: runs unproved, which takes half a minute or more; \`bin/build $program\` proves and builds it once" >&2
    room=$(mktemp -d) || exit 3
    # shellcheck disable=SC2064 # the folder of now
    trap "rm -rf -- '$room'" EXIT
    input=$room/input
    # (rt try takes less than 64 MiB of input, and gives the program a part of more)
    if ! head -c "$most" > "$input" 2> /dev/null; then
        echo "$program: standard input can't be read" >&2
        exit 3
    fi
    if (($(stat -c %s -- "$input") >= most)); then
        echo "$program: unproved it takes less than 64 MiB of input; \`bin/build $program\`" >&2
        exit 3
    fi
    (cd -- "$root/crates/$program" && rt try "${data[@]}" -- "$@" < "$input") > "$room/output" 2> "$room/errors"
    ended=$(sed -nE '$s/^run=ended status=([0-9]+) .*proved=no$/\1/p' -- "$room/errors")
    if [[ -z $ended ]]; then
        echo "$program: it didn't run to its end unproved (60 seconds and 1 MiB of output are what \`rt try\` gives it):" >&2
        sed 's/^/    /' -- "$room/errors" >&2
        exit 3
    fi
    grep -vE '^(checked: |run=|interpreter: |rt: )' -- "$room/errors" >&2
    if ! cat -- "$room/output" 2> /dev/null; then
        echo "$program: standard output can't be written" >&2
        exit 3
    fi
    exit "$ended"
}
