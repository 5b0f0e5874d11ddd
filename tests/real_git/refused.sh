# What is refused: bodies that are cut, altered or lacking, broken objects, and what others have.
# shellcheck shell=bash

# Objects that something else needs, of each kind.
needed() {
    git log --all --format=%T
    git rev-parse main:a main:a/b/c main:large main:empty main~1 "$(git rev-list --min-parents=3 main)^3" v1 signed light
}

lacking_one() {
    local name tip
    init lacking
    needed | sort -u >"$work/needed"
    while read -r name; do
        { header && all | grep -v "$name" | records; } |
            push "a body without $(git cat-file -t "$name") $name" lacking "no missing $name"
    done <"$work/needed"
    tip=$(git rev-parse main)
    asks 'a refused push leaves no object' lacking "no missing $tip" <<<"cat-file $tip"
    asks 'a refused push leaves no reference' lacking ok <<<'for-each-ref r'
}

# Cut within a command, a line of a record and a content, before the empty line, and before the last byte.
cut_short() {
    local head size at
    init cut
    head=$(header | wc -c)
    size=$(wc -c <"$work/body")
    for at in 0 10 $((head / 2)) $((head - 1)) $((head + 30)) $((head + 70)) $((size / 2)) $((size - 1)); do
        head -c "$at" "$work/body" | push "a body cut at byte $at" cut 'no truncated'
    done
    header | push 'commands alone' cut "no missing $(git for-each-ref --count=1 --format='%(objectname)')"
}

# Some objects of this kind that have a content.
some_of() {
    git cat-file --batch-all-objects --batch-check='%(objecttype) %(objectsize) %(objectname)' |
        sed -n "s/^$1 [1-9][0-9]* //p" | head -n 5
}

corrupted() {
    local name
    init corrupted
    for name in $(some_of blob && some_of tree && some_of commit && some_of tag) $(git rev-parse main:large); do
        body_altered_at "$name" |
            push "another byte in $(git cat-file -t "$name") $name" corrupted "no wrong-name $name"
    done
}

# The record of the blob `hello` LF, edited by this command of sed, and the reply.
edited() {
    { echo && git rev-parse main:plain | records; } | sed "$1" | push "a record edited by '$1'" corrupted "$2"
}

wrong_lines() {
    local name
    name=$(git rev-parse main:plain)
    edited 's/blob 6/tree 6/' "no wrong-name $name"
    edited 's/blob 6/blob 5/' "no wrong-name $name"
    edited 's/blob 6/blob 7/' 'no truncated'
    edited 's/blob 6/blob 06/' 'no syntax'
    edited 's/blob 6/blobs 6/' 'no syntax'
    edited 's/blob 6/BLOB 6/' 'no syntax'
    edited 's/ blob/  blob/' 'no syntax'
    edited 's/blob 6/blob 6 /' 'no syntax'
    edited 's/blob 6/missing/' 'no syntax'
    edited '2s/^[0-9a-f]*/\U&/' 'no syntax'
    edited '3s/h/H/' "no wrong-name $name"
    edited '4s/^/x/' 'no syntax'
    edited '' ok
}

# An object that is named right and is in no grammar: TYPE, and the content on standard input.
broken() {
    local name
    cat >"$work/broken"
    name=$(git hash-object --literally -t "$1" --stdin <"$work/broken")
    { printf '\n%s %s %d\n' "$name" "$1" "$(wc -c <"$work/broken")" && cat "$work/broken" && echo; } |
        push "a broken $1 $name" corrupted "no bad-object $name"
}

broken_objects() {
    { git cat-file tree main && git cat-file tree main; } | broken tree
    git cat-file tree main | head -c -1 | broken tree
    git cat-file commit main | sed '/^author/d' | broken commit
    git cat-file commit main | sed 's/^tree ./tree /' | broken commit
    git cat-file tag v1 | sed '/^type/d' | broken tag
}

# What one tenant has is nothing to another one.
strangers() {
    local tip
    init stranger
    tip=$(git rev-parse main)
    { echo "create refs/heads/main $tip" && echo && echo "$tip" | records; } |
        push 'a tip of which others have the rest' stranger "no missing $(git rev-parse "$tip^{tree}")"
    { echo "create refs/heads/main $tip" && echo; } | push 'a reference to what others have' stranger "no missing $tip"
    asks 'an object that others have' stranger "no missing $tip" <<<"cat-file $tip"
}
