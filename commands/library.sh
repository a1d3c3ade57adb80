# The library for C: how libmtapi.a is made of the proved archive and the glue, where it is installed, and its tests. Sourced by
# `mtapi`.
#
# An install without a C compiler, or before `mtapi_c` is proved, leaves it out and says so.
# shellcheck shell=bash disable=SC2154,SC2034 # what isn't set here is of the script that sources this

c_files=(lib/libmtapi.a include/mtapi.h include/mrapi.h lib/pkgconfig/mtapi.pc) # below the prefix

has_c_compiler() {
    command -v "${CC:-cc}" >/dev/null 2>&1
}

# Why there is no library for C here, or nothing.
why_no_library() {
    if ! has_c_compiler; then
        echo "there is no C compiler ${CC:-cc}"
    elif ! is_proved "$c_crate"; then
        echo "$c_crate isn't proved as its sources stand: './mtapi prove' proves it"
    fi
}

version_number() {
    sed -n 's/^## \([0-9.]*\).*/\1/p' "$top/CHANGELOG.md" | head -n 1
}

pkgconfig_text() {
    cat <<END
prefix=$1
libdir=\${prefix}/lib
includedir=\${prefix}/include

Name: mtapi
Description: MTAPI and MRAPI in C: a proved node with unproved glue
Version: $(version_number)
Cflags: -I\${includedir}
Libs: -L\${libdir} -lmtapi -pthread
END
}

# Puts the files of the library together below a folder, for this prefix.
fill_library() {
    mkdir -p "$1/lib/pkgconfig" "$1/include" && "$top/c/build" "$(built_of "$c_crate")" "$1/lib" &&
        cp "$top/c/mtapi.h" "$top/c/mrapi.h" "$1/include/" && pkgconfig_text "$2" >"$1/lib/pkgconfig/mtapi.pc"
}

# What stands there is of an earlier install, which noted it, or nothing.
need_free_c_places() {
    local each
    for each in "${c_files[@]}"; do
        if [ -e "$prefix/$each" ] && ! grep -qxF -e "$each" "$library/c_files" 2>/dev/null; then
            give_up_install "$prefix/$each is there, and isn't of mtapi"
        fi
    done
}

# Moves what `fill_library` put together to its places, and notes it.
move_c_files() {
    local each
    [ -d "$stage/c" ] || return 0
    for each in "${c_files[@]}"; do mv "$stage/c/$each" "$prefix/$each" || return; done
    rm -rf "$stage/c" && printf '%s\n' "${c_files[@]}" >"$stage/c_files"
}

remove_c_files() {
    local each
    [ -e "$library/c_files" ] || return 0
    while IFS= read -r each; do rm -f "$prefix/$each" || return; done <"$library/c_files"
}

# Runs the tests in C, and prints their output, whose last line counts them.
run_c_tests() {
    "$top/c/tests/run" "$(built_of "$c_crate")"
}
