# What `mtapi` and `.ci/run` both say of the programs of this repository: where they stand, and what they are proved from.
# Sourced with `top` as the folder of the repository.
# shellcheck shell=bash disable=SC2034,SC2154 # used by the scripts that source this; `top` is theirs

command_crate=mtapi_cli
kept_crate=mtapi_kept # runs and judges by the command, in memory
# Further programs, each as WORD:CRATE: the first word that asks for it, and the crate that makes it.
further=(check:mtapi_kept judge:mtapi_judge picture:mtapi_picture trace:mtapi_trace explain:mtapi_explain orders:mtapi_orders)
programs=("$command_crate" "${further[@]#*:}")
libraries=(typed_pieces chunked_pieces plain_work write_run) # on which a program of one's own stands
c_crate=mtapi_c                         # the library for C, an archive
default_processor=x86-64-v2 new_processor=x86-64-v3
new_words=(avx2 bmi1 bmi2 fma f16c movbe abm) # of /proc/cpuinfo, without which x86-64-v3 doesn't run

is_program() {
    [ -e "$top/crates/$1/src/main.rt" ]
}

program_of() {
    if [ -n "${installed-}" ]; then echo "$top/programs/$1"; else echo "$top/crates/$1/out/$1"; fi
}

# The file that changes with what was built of a crate: the program, the archive for C, or the stamp that rt leaves beside a
# library.
built_of() {
    if is_program "$1"; then
        program_of "$1"
    elif [ "$1" = "$c_crate" ]; then
        echo "$top/crates/$1/out/lib$1.a"
    else
        echo "$top/crates/$1/out/rlib/stamp"
    fi
}

# The crates of this repository that a program is made of, its own among them.
crates_of() {
    awk -v last="$1" '
        function visit(name,    found, n, i) {
            if (name in seen || !(name in below)) return
            seen[name] = 1
            print name
            n = split(below[name], found, " ")
            for (i = 1; i <= n; i++) visit(found[i])
        }
        { sub(/#.*/, "") }
        /:/ { name = $1; sub(/:.*/, "", name); sub(/^[^:]*:/, ""); below[name] = $0 }
        END { visit(last) }' "$top/crates.txt"
}

# The lines of crates.txt of these crates.
lines_of() {
    awk -v names="$*" '
        BEGIN { n = split(names, list, " "); for (i = 1; i <= n; i++) wanted[list[i]] = 1 }
        { name = $1; sub(/:.*/, "", name) }
        name in wanted' "$top/crates.txt"
}

# A sum over all that a crate is proved from. Times of files wouldn't do: some tools put back an older time.
sum_of_sources() {
    local names
    mapfile -t names < <(crates_of "$1")
    (cd "$top/crates" && {
        lines_of "${names[@]}"
        find "${names[@]}" -name out -prune -o -type f \( -name '*.rt' -o -name '*.antt' \) -print0 |
            LC_ALL=C sort -z | xargs -0 sha256sum
    } | sha256sum)
}

# What is noted beside a crate that was proved and built: the sum of what it was proved from, and of what was built. One that
# was built from other sources in the meantime is no longer the one that the note is of. A second line says of what kind it is:
# for which processor a program was built, or by which toolchain a library.
note_file() {
    if is_program "$1" || [ "$1" = "$c_crate" ]; then echo "$(built_of "$1").proved"; else echo "$top/crates/$1/out/rlib/proved"; fi
}

note_of() {
    echo "$2 $(sha256sum <"$(built_of "$1")")"
}

keep_note() {
    local note
    note=$(note_file "$1")
    { note_of "$1" "$2" && echo "$3"; } >"$note.new" && mv "$note.new" "$note"
}

# Whether what stands there was proved from the sources as they are. What was installed was, and has none beside it.
is_proved() {
    local note first
    if [ -n "${installed-}" ]; then return 0; fi
    note=$(note_file "$1")
    [ -e "$(built_of "$1")" ] && [ -e "$note" ] && IFS= read -r first <"$note" &&
        [ "$(note_of "$1" "$(sum_of_sources "$1")")" = "$first" ]
}

kind_of() {
    if [ -n "${installed-}" ]; then cat "$top/programs/$1.kind"; else sed -n 2p "$(note_file "$1")"; fi
}

# For which processor a program was built.
processor_of() {
    local kind
    kind=$(kind_of "$1")
    echo "${kind:-$default_processor}"
}

# Prints the words of this machine's processor, or nothing if they aren't told.
words_of_processor() {
    local line
    while IFS= read -r line; do
        case $line in flags*) echo "${line#*:}" && return ;; esac
    done 2>/dev/null </proc/cpuinfo
}

# Whether these words of a processor tell that it runs programs built for the newer one.
are_new() {
    local each
    for each in "${new_words[@]}"; do
        case " $1 " in *" $each "*) ;; *) return 1 ;; esac
    done
}

# Whether this processor runs the program. Where its words aren't told, it is taken to.
runs_here() {
    local words
    [ "$(processor_of "$1")" = "$new_processor" ] || return 0
    words=$(words_of_processor)
    [ -z "$words" ] || are_new "$words"
}
