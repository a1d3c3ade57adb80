# `mtapi new FOLDER [NAME]`: a repository with a program of one's own, and all crates that it stands on. Sourced by `mtapi`.
# shellcheck shell=bash disable=SC2154 # what isn't set here is of the script that sources this

own_uses=(typed_pieces write_run byte_io mtapi_values) # what the program names
reserved='abstract as async await become box break const continue crate do dyn else ensures enum extern false final fn for
gen ghost if impl in let loop macro match mod move mut override priv pub ref requires return self static struct super trait
true try type typeof unsafe unsized use virtual where while yield core std'
room='' # where the repository is put together

# Ends with this message, and leaves nothing of what was made.
give_up_new() {
    discard_new
    tell "$1"
    leave 1
}

discard_new() {
    if [ -n "$room" ]; then rm -rf "$room"; fi
    if [ -n "$room" ] && [ -n "$made_folder" ]; then rmdir "$made_folder" 2>/dev/null; fi
}

# The crates below the program, the lowest first.
crates_below_own() {
    local each
    for each in "${own_uses[@]}"; do crates_of "$each"; done | sort -u | grep -xF -f - <(sed -n 's/^\([a-z0-9_]*\).*:.*/\1/p' "$top/crates.txt")
}

# Why this can't be the name of a crate, if it can't.
fault_of_name() {
    local kit
    if ! [[ $1 =~ ^[a-z][a-z0-9_]{0,39}$ ]]; then
        echo "a name is a letter a to z and up to 39 more of a to z, 0 to 9 and _"
    elif grep -qwF -e "$1" <<<"$reserved"; then
        echo "it is a word of the language"
    elif [ -e "$top/crates/$1" ]; then
        echo "a crate of mtapi has that name"
    elif kit=$(rt doc 2>/dev/null) && [ -e "$(dirname "$kit")/rlibs/$1.rlib" ]; then
        echo "a library of the toolchain has that name"
    fi
}

# The folder has to be a new one in a folder that is there, or an empty one.
check_folder() {
    local parent
    parent=$(cd "$(dirname "$1")" 2>/dev/null && pwd) || give_up_new "there is no folder $(dirname "$1")"
    case $parent/ in "$top"/*) give_up_new "$1 lies in the repository of mtapi: name a folder elsewhere" ;; esac
    if [ -e "$1" ] || [ -L "$1" ]; then
        [ -d "$1" ] || give_up_new "$1 is there, and is no folder"
        [ -z "$(ls -A "$1")" ] || give_up_new "$1 isn't empty"
    fi
}

# The parts of the sources that a crate above needs, and its library if it stands.
copy_crate() {
    local from=$top/crates/$1 to=$room/crates/$1 part
    mkdir "$to" || return
    for part in src specs proofs; do
        if [ -d "$from/$part" ]; then cp -R "$from/$part" "$to/" || return; fi
    done
    if [ -e "$from/out/rlib/stamp" ]; then
        mkdir "$to/out" && link_folder "$from/out/rlib" "$to/out/rlib" || return
    fi
}

write_lists() {
    {
        echo "# the program"
        echo "$name: ${own_uses[*]}"
        echo
        echo "# what it stands on, of mtapi"
        lines_of "${crates[@]}"
    } >"$room/crates.txt" && printf 'out/\n.inc/\n*.oantt\n' >"$room/.gitignore" && cp "$top/HANDLES" "$top/LICENSE" "$room/"
}

write_program() {
    mkdir -p "$room/crates/$name/src" && cp "$top/commands/own_program.template" "$room/crates/$name/src/main.rt" &&
        cp "$top/commands/own_program.stdout" "$room/crates/$name/stdout"
}

# Puts the repository together in a folder beside its place, and moves it there at the end.
make_new() {
    local each
    mkdir "$room/crates" && write_lists && write_program || return
    for each in "${crates[@]}"; do copy_crate "$each" || return; done
    if command -v git >/dev/null 2>&1; then git init -q "$room" || return; fi
}

# How many of the crates lack their library here.
count_unproved() {
    local each lacking=0
    for each in "${crates[@]}"; do
        if ! [ -e "$top/crates/$each/out/rlib/stamp" ]; then lacking=$((lacking + 1)); fi
    done
    echo "$lacking"
}

tell_next() {
    local lacking
    lacking=$(count_unproved)
    echo "$folder: a repository with the program crates/$name and the ${#crates[@]} crates that it stands on"
    echo "In $folder/crates/$name type"
    echo "  rt try      to run it unproved: a minute"
    if [ "$lacking" -eq 0 ]; then
        echo "  rt check    to prove it: two minutes"
    else
        echo "  rt check    to prove it: two minutes, and half an hour or more the first time, as $lacking crates below aren't proved"
        echo "              yet ('./mtapi prove' before './mtapi new' spares that)"
    fi
    echo "  rt run      to prove, build and run it: half a minute once it is proved"
    echo "  rt run -- journal > kept      to keep its run, which './mtapi picture kept' and './mtapi trace kept' show"
    echo "$folder/crates/$name/src/main.rt is yours to change; docs/embedding.md tells what else there is."
}

new() {
    local folder=${1%/} name crates=() made_folder='' fault hint=''
    folder=${folder:-/}
    name=${2-$(basename "$(readlink -m "$folder")")}
    [ $# -eq 2 ] || hint=": './mtapi new $folder NAME' names it otherwise"
    check_folder "$folder"
    fault=$(fault_of_name "$name")
    if [ -n "$fault" ]; then give_up_new "$name can't be the name of the program: $fault$hint"; fi
    mapfile -t crates < <(crates_below_own)
    make_scratch
    on_signals discard_new
    if ! [ -d "$folder" ]; then
        mkdir "$folder" 2>/dev/null || give_up_new "$folder can't be made"
        made_folder=$folder
    fi
    room=$(mktemp -d "$folder/.new.XXXXXX" 2>/dev/null) || give_up_new "$folder can't be written"
    make_new 2>"$scratch/errors" || give_up_new "$folder couldn't be filled: $(tail -n 1 "$scratch/errors")"
    mv "$room"/* "$room"/.[!.]* "$folder/" || give_up_new "$folder couldn't be filled"
    rmdir "$room"
    tell_next
    leave 0
}
