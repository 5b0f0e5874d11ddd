#!/usr/bin/env bash
# Shows that what Git makes goes into forkhost and comes back byte for byte. Real git commands make a repository of the
# SHA-256 format: merges, tags of every kind, all modes, odd file names, headers of many lines, empty and large objects.
# It is pushed in one body and in parts of many sizes, reversed, cut, corrupted and lacking one object; then references
# are deleted and moved, and what none reaches is pruned. Each object, reference, use and refusal is compared with what
# Git says, in memory and over a folder, whose files are compared with Git's objects. Then histories of many shapes are
# pushed, walked, and fetched into Git and into other tenants (`real_git/history`). It takes some half a minute
# and no network. Each subject has a file in `real_git`.
# tests/real_git.sh [PROGRAM]: the program is crates/forkhost/out/forkhost where none is given.
# The last line is `N passed, M failed`, and the status is 0 where M is 0.
# shellcheck source-path=SCRIPTDIR
set -euo pipefail

here=$(cd "$(dirname "$0")" && pwd)
work=$(mktemp -d)
passed=0
failed=0
reported=no
trap finish EXIT

finish() {
    [ "$reported" = yes ] || echo "$passed passed, $((failed + 1)) failed"
    rm -rf "$work"
}

. "$here/real_git/repository.sh"
. "$here/real_git/told.sh"
. "$here/real_git/bodies.sh"
. "$here/real_git/turns.sh"
. "$here/real_git/counts.sh"
. "$here/real_git/taken.sh"
. "$here/real_git/refused.sh"
. "$here/real_git/pruned.sh"
. "$here/real_git/kept.sh"

main() {
    local program
    program=$(realpath "${1:-$here/../crates/forkhost/out/forkhost}")
    make_empty
    make_files
    make_odd_names
    make_merges
    make_odd_commits
    make_tags
    print_all
    { header && git cat-file --batch --batch-all-objects; } >"$work/body"
    the_repository_has_it_all
    in_one_body
    in_parts
    in_reverse
    lacking_one
    cut_short
    corrupted
    wrong_lines
    broken_objects
    strangers
    later
    pruned mixed
    run_session "$program"
    in_a_folder
    run_history "$program"
    report
}

main "$@"
