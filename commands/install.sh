# `mtapi install [PREFIX]` and `mtapi uninstall [PREFIX]`: the proved programs, and the library for C, where they need no toolchain
# and no repository. Sourced by `mtapi`.
#
# Below PREFIX stand bin/mtapi, a link to this script in lib/mtapi with its parts and the programs, two manual pages, and what
# completes words in bash. All of it is put together first, so that a full disk leaves what was there.
# shellcheck shell=bash disable=SC2154 # what isn't set here is of the script that sources this

installed_parts=(words colours files verify judge orders) # of commands/, which the installed script needs
stage=''                                          # where the parts are put together

give_up_install() {
    discard_stage
    tell "$1"
    leave 1
}

discard_stage() {
    if [ -n "$stage" ]; then rm -rf "$stage"; fi
}

# Where the parts stand, below the prefix.
set_places() {
    prefix=$(readlink -m -- "${1-/usr/local}")
    link=$prefix/bin/mtapi
    library=$prefix/lib/mtapi
    manual=$prefix/share/man/man1/mtapi.1
    workload_manual=$prefix/share/man/man5/mtapi-workload.5
    completion=$prefix/share/bash-completion/completions/mtapi
}

need_proved() {
    local each
    for each in "${programs[@]}"; do
        if ! is_proved "$each"; then
            give_up_install "nothing was installed: $each isn't proved as its sources stand: './mtapi prove --command' proves it"
        fi
    done
}

# What stands there is of an earlier install, or nothing.
need_free_places() {
    if [ -e "$library" ] && ! [ -d "$library/programs" ]; then give_up_install "$library is there, and isn't of mtapi"; fi
    if { [ -e "$link" ] || [ -L "$link" ]; } && [ "$(readlink -- "$link")" != ../lib/mtapi/mtapi ]; then
        give_up_install "$link is there, and isn't of mtapi"
    fi
    if [ -z "$no_library" ]; then need_free_c_places; fi
}

# Makes a folder with those above it, and notes what was made, so that an uninstall takes it away again.
make_folder() {
    local missing=() each=$1
    while ! [ -d "$each" ]; do
        missing=("$each" "${missing[@]}")
        each=$(dirname "$each")
    done
    for each in "${missing[@]}"; do
        mkdir -- "$each" && made=("$each" "${made[@]}") || return
    done
}

make_folders() {
    local each
    for each in "$library" "$link" "$manual" "$workload_manual" "$completion"; do make_folder "$(dirname "$each")" || return; done
    [ -z "$no_library" ] || return 0
    for each in "${c_files[@]}"; do make_folder "$(dirname "$prefix/$each")" || return; done
}

remove_folders() {
    local folder
    for folder in "$@"; do rmdir -- "$folder" 2>/dev/null; done
}

# Puts all parts together in the folder `stage`.
fill_stage() {
    local each
    mkdir -p "$stage/commands" "$stage/.ci" "$stage/programs" && cp "$top/mtapi" "$stage/" &&
        cp "$top/.ci/programs.sh" "$stage/.ci/" || return
    for each in "${installed_parts[@]}"; do cp "$top/commands/$each.sh" "$stage/commands/" || return; done
    for each in "${programs[@]}"; do
        cp "$(program_of "$each")" "$stage/programs/" && kind_of "$each" >"$stage/programs/$each.kind" || return
    done
    if [ -z "$no_library" ]; then fill_library "$stage/c" "$prefix" || return; fi
    { tell_version && echo "built for $(processor_of "$command_crate")"; } >"$stage/version" &&
        printf '%s\n' "${made[@]}" >"$stage/folders" &&
        installed=yes manual_text >"$stage/mtapi.1" && workload_manual_text >"$stage/mtapi-workload.5" &&
        installed=yes completion_text >"$stage/completion"
}

# Moves the parts to their places; what was there goes.
move_parts() {
    if [ -e "$library" ]; then cat "$library/folders" >>"$stage/folders"; fi
    remove_c_files && move_c_files && rm -rf "$library" && mv "$stage/mtapi.1" "$manual" && mv "$stage/mtapi-workload.5" "$workload_manual" &&
        mv "$stage/completion" "$completion" && chmod 755 "$stage" && mv "$stage" "$library" && ln -sfn ../lib/mtapi/mtapi "$link"
}

install() {
    local prefix link library manual workload_manual completion no_library made=()
    set_places "$@"
    need_proved
    no_library=$(why_no_library)
    need_free_places
    make_scratch
    on_signals discard_stage
    if ! make_folders 2>"$scratch/errors" || ! stage=$(mktemp -d "$prefix/lib/.mtapi.XXXXXX" 2>"$scratch/errors"); then
        remove_folders "${made[@]}"
        give_up_install "nothing was installed: $(tail -n 1 "$scratch/errors")"
    fi
    if ! fill_stage 2>"$scratch/errors"; then
        discard_stage
        remove_folders "${made[@]}"
        give_up_install "nothing was installed: $(tail -n 1 "$scratch/errors")"
    fi
    move_parts 2>"$scratch/errors" || give_up_install "the parts couldn't be moved to their places: $(tail -n 1 "$scratch/errors")"
    echo "$link runs the proved programs, which were built for $(processor_of "$command_crate"); 'man mtapi' tells its words, and 'man mtapi-workload' what a workload may say"
    if [ -z "$no_library" ]; then
        echo "$prefix/lib/libmtapi.a is the library for C: 'cc FILE \$(PKG_CONFIG_PATH=$prefix/lib/pkgconfig pkg-config --cflags --libs mtapi)'"
    else
        echo "the library for C was left out: $no_library"
    fi
    case :$PATH: in *":$prefix/bin:"*) ;; *) echo "$prefix/bin isn't on the PATH" ;; esac
    leave 0
}

uninstall() {
    local prefix link library manual workload_manual completion folders
    set_places "$@"
    if ! [ -d "$library/programs" ]; then give_up_install "no mtapi is installed below $prefix"; fi
    mapfile -t folders <"$library/folders"
    if [ "$(readlink -- "$link")" = ../lib/mtapi/mtapi ]; then rm -f "$link"; fi
    if ! remove_c_files || ! rm -rf "$library" || ! rm -f "$manual" "$workload_manual" "$completion"; then
        give_up_install "what is installed below $prefix couldn't be removed"
    fi
    remove_folders "${folders[@]}"
    echo "mtapi was removed from $prefix"
}

# What completes the words of `mtapi` in bash.
completion_text() {
    cat <<END
# Completes the words of mtapi in bash.
_mtapi() {
    local word=\${COMP_WORDS[COMP_CWORD]}
    if [ "\$COMP_CWORD" -eq 1 ]; then
        mapfile -t COMPREPLY < <(compgen -W "$(all_words | tr '\n' ' ')--help --version" -- "\$word")
        return
    fi
    mapfile -t COMPREPLY < <(compgen -f -- "\$word")
    case \${COMP_WORDS[1]} in
    run) if [[ \$word = -* ]]; then COMPREPLY=(--journal); fi ;;
    verify | expect | bounded) if [[ \$word = -* ]]; then COMPREPLY=(-v); fi ;;
    gen | --*) COMPREPLY=() ;;
    esac
}
complete -o filenames -F _mtapi mtapi
END
}
