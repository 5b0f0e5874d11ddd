# A repository by real git commands: merges, tags of every kind, all modes, odd file names.
# shellcheck shell=bash

# Git with no configuration but its own, two persons, and a clock that is set by hand.
make_empty() {
    # shellcheck disable=SC2046
    unset $(git rev-parse --local-env-vars)
    export HOME=$work GIT_CONFIG_NOSYSTEM=1 GIT_CONFIG_SYSTEM=/dev/null GIT_CONFIG_GLOBAL=/dev/null LC_ALL=C TZ=UTC
    export GIT_AUTHOR_NAME='Ada L' GIT_AUTHOR_EMAIL=ada@example.org
    export GIT_COMMITTER_NAME='Bo Å' GIT_COMMITTER_EMAIL=bo@example.org
    clock=1700000000
    tick
    git init -q --object-format=sha256 --template= -b main "$work/repository"
    cd "$work/repository"
    git config gc.auto 0
}

tick() {
    clock=$((clock + 60))
    export GIT_AUTHOR_DATE="$clock -0330" GIT_COMMITTER_DATE="$((clock + 7)) +1245"
}

# A commit of what the folder holds, with this message.
commit() {
    tick
    git add -A
    git commit -q --allow-empty --allow-empty-message --cleanup=verbatim -m "$1"
}

# A reference to an object whose content is standard input: REF TYPE.
object_at() {
    git update-ref "$1" "$(git hash-object -w -t "$2" --stdin)"
}

make_files() {
    printf 'hello\n' >plain
    printf '#!/bin/sh\n' >run
    chmod +x run
    ln -s plain link
    : >empty
    printf '\0\1\377\r\n\0' >binary
    seq 100000 | head -c 409600 >large || true
    mkdir module
    git update-index --add --cacheinfo "160000,$(printf '1%.0s' {1..64}),module"
    commit 'all modes'
}

make_odd_names() {
    local name
    mkdir -p a/b/c 'with space'
    for name in a/b/c/deep a.b a0 a-b 'with space/two  spaces' "qu\"ote's" -dash '*' ünï \
        $'\xff\xfe' $'new\nline' $'tab\there'; do
        printf '%s' "$name" >"./$name"
    done
    commit $'odd names\n\nand a message\nof lines'
}

# A branch of one commit that adds one file; main is left as it was.
branch() {
    git checkout -q -b "$1"
    echo "$1" >"file of $1"
    commit "work on $1"
    git checkout -q main
}

# A merge of these branches, after one more commit of main.
merge() {
    echo "$*" >>log
    commit "before the merge of $*"
    tick
    git merge -q --no-ff -m "merge of $*" "$@" >"$work/merge.log" 2>&1
}

make_merges() {
    branch side
    merge side
    branch topic
    merge topic
    branch one
    branch two
    merge one two
}

# The commit of HEAD with headers of many lines, as those of a merged tag and of a signature.
with_headers() {
    git cat-file commit HEAD | sed '/^committer/a\
mergetag object 1111111111111111111111111111111111111111111111111111111111111111\
 type commit\
 tag v0\
 \
 text\
gpgsig-sha256 -----BEGIN PGP SIGNATURE-----\
 \
 iQEzBAABCAAdFiEE\
 -----END PGP SIGNATURE-----'
}

make_odd_commits() {
    commit ''
    git update-ref refs/heads/bare "$(git commit-tree -m 'nothing' "$(git mktree </dev/null)")"
    tick
    git -c i18n.commitEncoding=ISO-8859-1 commit -q --allow-empty -m $'caf\xe9'
    with_headers | object_at refs/heads/signed commit
    git cat-file commit HEAD | sed '/^$/,$d' | object_at refs/heads/no-message commit
    git notes add -m 'a note' HEAD
}

make_tags() {
    tick
    git tag -a -m $'first\n\nof lines\n' v1
    git -c advice.nestedTag=false tag -a -m 'a tag of a tag' v1-again v1
    git tag -a -m 'a tag of a blob' blob HEAD:plain
    git tag -a -m 'a tag of a tree' tree 'HEAD^{tree}'
    git tag light side
    git update-ref refs/files/empty HEAD:empty
    git update-ref refs/heads/ünï/x HEAD
}
