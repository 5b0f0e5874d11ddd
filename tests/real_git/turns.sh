# Turns, each of which is a check: what a tenant asks, and what it is told.
# shellcheck shell=bash

# What it shows, who asks, the files of the payload and of the reply.
turn() {
    printf 'ask\t%s\t%s\t%s\t%s\n' "$@" >>"$work/turns"
}

# The same with the payload on standard input and the reply as text.
asks() {
    local asked told
    asked=$(mktemp "$work/asked/XXXXXX")
    told=$(mktemp "$work/told/XXXXXX")
    cat >"$asked"
    printf '%s\n' "$3" >"$told"
    turn "$1" "$2" "$asked" "$told"
}

init() {
    asks 'a repository is made' "$1" ok <<<'init r'
}

# A push of the body on standard input: what it shows, who asks, the reply.
push() {
    { echo 'push r' && cat; } | asks "$@"
}

# The same in parts: what it shows, who asks, the reply, the file of the body, sizes.
push_parts() {
    printf 'parts\t%s\t%s\t%s\t%s\n' "$1: the parts" "$2" "$4" "$5" >>"$work/turns"
    asks "$1" "$2" "$3" <<<'part-end r'
}

# The tenant sees each object and each reference as Git does.
sees_all() {
    local name
    echo 'for-each-ref r' >"$work/asked/references"
    for name in "${names[@]}"; do
        turn "$name is as Git prints it" "$1" "$work/asked/$name" "$work/told/$name"
    done
    turn 'references are as Git prints them' "$1" "$work/asked/references" "$references"
}
