# What was shown: checks that need no program, the turns of the session, and those that other programs count.
# shellcheck shell=bash

# A check that needs no program: what it shows, what is wanted, what there is.
same() {
    if [ "$2" = "$3" ]; then
        passed=$((passed + 1))
    else
        failed=$((failed + 1))
        echo "failed: $1: $3, and not $2"
    fi
}

# Adds up the last line of standard input, which is `N passed, M failed`, and shows the others.
add_up() {
    local said last
    said=$(cat)
    last=${said##*$'\n'}
    [ "$said" = "$last" ] || echo "${said%$'\n'*}"
    [[ $last =~ ^([0-9]+)\ passed,\ ([0-9]+)\ failed$ ]]
    passed=$((passed + BASH_REMATCH[1]))
    failed=$((failed + BASH_REMATCH[2]))
}

# Sends all turns to the program, which is given these words too.
run_session() {
    local tenants
    mapfile -t tenants < <(cut -f 3 "$work/turns" | sort -u | sed 's/$/=1000000/')
    add_up < <("$here/session" "$1" "$work/turns" "${@:2}" "${tenants[@]}" || true)
}

# Sends all histories to the program.
run_history() {
    add_up < <(cd "$here" && python3 -B -m real_git.history "$1" || true)
}

report() {
    echo "$passed passed, $failed failed"
    reported=yes
    [ "$failed" -eq 0 ]
}
