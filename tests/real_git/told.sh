# What Git says of it: each object's record, and the references.
# shellcheck shell=bash

# The names of all objects of a kind.
names_of() {
    git cat-file --batch-all-objects --batch-check='%(objecttype) %(objectname)' | sed -n "s/^$1 //p"
}

# The request for each of these objects, Git's record of it, and the reply.
print_objects() {
    local name
    for name in "$@"; do
        echo "cat-file $name" >"$work/asked/$name"
        git cat-file --batch <<<"$name" >"$work/record/$name"
        { echo ok && cat "$work/record/$name"; } >"$work/told/$name"
    done
}

# The reply that tells Git's references, as a new file.
print_references() {
    references=$(mktemp "$work/told/XXXXXX")
    { echo ok && git for-each-ref --format='%(objectname) %(objecttype)%09%(refname)'; } >"$references"
}

print_all() {
    mkdir "$work/asked" "$work/record" "$work/told"
    mapfile -t names < <(names_of '[a-z]*')
    print_objects "${names[@]}"
    print_references
}
