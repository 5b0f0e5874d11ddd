# The same turns over a folder: what it keeps, file by file, and what is seen after another start.
# shellcheck shell=bash

# The file of the object with this record: its type, SP, its size, a zero byte, its content.
file_of() {
    head -n 1 "$1" | cut -d ' ' -f 2- | tr '\n' '\0'
    tail -n +2 "$1" | head -c -1
}

keeps_all() {
    local name
    for name in "${names[@]}"; do
        same "the file of $name" "$(file_of "$work/record/$name" | sha256sum)" \
            "$(sha256sum <"$work/folder/objects/${name:0:2}/${name:2}")"
    done
}

is_sound() {
    same "check $1" sound "$("$program" check --dir "$work/folder" 2>&1)"
}

in_a_folder() {
    run_session "$program" --dir "$work/folder"
    is_sound 'after the session'
    mapfile -t names < <(ls "$work/record")
    keeps_all
    : >"$work/turns"
    sees_all whole
    add_up < <("$here/session" "$program" "$work/turns" --dir "$work/folder" || true)
    is_sound 'after another one'
}
