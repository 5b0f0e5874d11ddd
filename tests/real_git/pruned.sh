# What is pruned once references are deleted and moved, and what is used then.
# shellcheck shell=bash

# The sum of 64 and the length of each object whose name is a line of this file, as `quota` tells it.
use_of() {
    local size used=0
    while read -r size; do
        used=$((used + size + 64))
    done < <(git cat-file --batch-check='%(objectsize)' <"$1")
    echo "$used 1000000"
}

# The tenant uses what these objects use: what it shows, who asks, the file of their names.
uses() {
    asks "$1: what is used" "$2" "ok"$'\n'"$(use_of "$3")" <<<quota
}

# Of all objects the tenant sees those that Git's references reach, and no others: what it shows, who asks.
sees_reached() {
    local name
    git rev-list --objects --no-object-names --all | sort -u >"$work/reached"
    same "$1: what is reached was pushed" '' "$(comm -13 "$work/all" "$work/reached")"
    while read -r name; do
        turn "$1: $name stays" "$2" "$work/asked/$name" "$work/told/$name"
    done < <(comm -12 "$work/all" "$work/reached")
    while read -r name; do
        asks "$1: $name goes" "$2" "no missing $name" <"$work/asked/$name"
    done < <(comm -23 "$work/all" "$work/reached")
    uses "$1" "$2" "$work/reached"
}

# The lines of standard input as a transaction, in Git and by the tenant, and then a prune: what it shows, who asks,
# and how many objects it takes away at the least.
prune_after() {
    local before gone
    cat >"$work/commands"
    before=$(wc -l <"$work/reached")
    git update-ref --stdin <"$work/commands"
    { echo 'update-refs r' && cat "$work/commands"; } | asks "$1: the transaction" "$2" ok
    uses "$1: before the prune" "$2" "$work/reached"
    asks "$1: the prune" "$2" ok <<<prune
    sees_reached "$1" "$2"
    gone=$((before - $(wc -l <"$work/reached")))
    same "$1: at least $3 go" yes "$([ "$gone" -ge "$3" ] && echo yes || echo "$gone")"
}

# What `git prune` leaves is what the references reach.
prune_in_git() {
    git reflog expire --expire=now --all
    rm -f .git/index
    git prune --expire=now
    same 'git prune leaves what is reached' "$(cat "$work/reached")" "$(names_of '[a-z]*' | sort)"
}

pruned() {
    local who=$1
    names_of '[a-z]*' | sort >"$work/all"
    uses 'all of it' "$who" "$work/all"
    asks 'a prune before any deletion' "$who" ok <<<prune
    sees_reached 'a prune before any deletion' "$who"
    prune_after 'a branch that is merged' "$who" 0 <<<'delete refs/heads/topic'
    prune_after 'a branch that is not merged' "$who" 1 <<<'delete refs/heads/signed'
    prune_after 'a tag that another one tags' "$who" 0 <<<'delete refs/tags/v1'
    prune_after 'a tag of a tag' "$who" 2 <<<'delete refs/tags/v1-again'
    prune_after 'notes' "$who" 3 <<<'delete refs/notes/commits'
    prune_after 'a reference to a blob' "$who" 0 <<<'delete refs/files/empty'
    prune_after 'tags of a tree and of a blob' "$who" 2 <<<$'delete refs/tags/tree\ndelete refs/tags/blob'
    prune_after 'a branch goes back' "$who" 6 <<<"update refs/heads/main $(git rev-parse main~5) $(git rev-parse main)"
    prune_in_git
    git for-each-ref --format='delete %(refname) %(objectname)' >"$work/deletions"
    prune_after 'no reference is left' "$who" 1 <"$work/deletions"
    same 'nothing is reached without references' '' "$(cat "$work/reached")"
}
