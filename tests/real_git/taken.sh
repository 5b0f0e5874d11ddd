# What is taken: the repository in one body, in parts, in reverse, and what came later.
# shellcheck shell=bash

the_repository_has_it_all() {
    local size
    size=$(wc -c <"$work/body")
    same 'the body fits into one frame, and has the large blob' yes \
        "$([ "$size" -gt 409600 ] && [ "$size" -lt 1048000 ] && echo yes || echo "$size bytes")"
    same 'two merges of one branch' 2 "$(git rev-list --count --min-parents=2 --max-parents=2 main)"
    same 'a merge of two branches' 1 "$(git rev-list --count --min-parents=3 --max-parents=3 main)"
    same 'all modes' '040000 100644 100755 120000 160000' "$(git ls-tree main | cut -d ' ' -f 1 | sort -u | xargs)"
    same 'references to objects of all kinds' 'blob commit tag' "$(git for-each-ref --format='%(objecttype)' | sort -u | xargs)"
    same 'records one by one are those at once' "$(sha256sum <"$work/body")" "$({ header && all | records; } | sha256sum)"
}

in_one_body() {
    init whole
    push 'one body' whole ok <"$work/body"
    sees_all whole
    { git for-each-ref --format='verify %(refname) %(objectname)' && echo && all | records; } |
        push 'the same objects again' whole ok
    asks 'HEAD is the branch of the name main' whole "ok
refs/heads/main $(git rev-parse HEAD)" <<<'head r'
    asks 'another HEAD' whole ok <<<'set-head r refs/heads/side'
    asks 'it is where Git has it' whole "ok
refs/heads/side $(git rev-parse side)" <<<'head r'
    asks 'a fork' whole ok <<<'fork r s'
    asks 'it has the same HEAD' whole "ok
refs/heads/side $(git rev-parse side)" <<<'head s'
    echo 'for-each-ref s' >"$work/asked/fork"
    turn 'a fork has the same references' whole "$work/asked/fork" "$references"
}

in_parts() {
    local who sizes
    while read -r who sizes; do
        init "$who"
        push_parts "parts of $sizes" "$who" ok "$work/body" "$sizes"
        sees_all "$who"
    done <<<'mixed 1x500 7x300 100x100 4096x10 65536
sevens 7
hundreds 100
pages 4096
blocks 65536
single 1000000'
}

in_reverse() {
    init reversed
    { header && all | tac | records; } | push 'records in reverse order' reversed ok
    sees_all reversed
}

# A later push brings what is new alone, and moves the branch.
later() {
    local old new
    old=$(git rev-parse main)
    echo later >a/b/c/later
    commit later
    new=$(git rev-parse main)
    mapfile -t names < <(git rev-list --objects --no-object-names "$new" "^$old")
    print_objects "${names[@]}"
    print_references
    { echo "update refs/heads/main $new $old" && echo && all | records; } >"$work/later"
    push 'what is new alone' whole ok <"$work/later"
    sees_all whole
    push 'the same once more' whole 'no stale refs/heads/main' <"$work/later"
    push 'what is new, without the rest' stranger "no missing $old" <"$work/later"
    push_parts 'what is new, in parts of one byte' mixed ok "$work/later" 1
    sees_all mixed
}
