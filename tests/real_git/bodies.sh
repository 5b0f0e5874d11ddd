# Bodies of pushes: commands that make every reference, and records.
# shellcheck shell=bash

# Commands that make every reference, and the empty line.
header() {
    git for-each-ref --format='create %(refname) %(objectname)'
    echo
}

all() {
    printf '%s\n' "${names[@]}"
}

# The records of the objects whose names are the lines of standard input.
records() {
    local name
    while read -r name; do
        cat "$work/record/$name"
    done
}

# A file in which the last bit of one byte is turned: FILE AT.
altered() {
    local byte
    byte=$(od -An -tu1 -j "$2" -N 1 "$1")
    head -c "$2" "$1"
    # shellcheck disable=SC2059
    printf "\\$(printf %o $((byte ^ 1)))"
    tail -c +$(($2 + 2)) "$1"
}

# The whole body, with another middle byte in the content of this object.
body_altered_at() {
    local record=$work/record/$1
    header
    all | sed "/$1/,\$d" | records
    altered "$record" $(($(head -n 1 "$record" | wc -c) + $(git cat-file -s "$1") / 2))
    all | sed "1,/$1/d" | records
}
