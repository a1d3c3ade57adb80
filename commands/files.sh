# The words that take files: `run`, `check`, `picture`, `trace` and `explain`. Sourced by `mtapi`.
# shellcheck shell=bash disable=SC2154,SC2034 # what isn't set here is of the script that sources this

most_input=67108864 # bytes of an input; what an unproved run is given has to be shorter
most_seconds=300    # that an unproved run may take once it is compiled, and a run of `verify` and the like
page_of_waits="docs/tutorial.md, 'When nothing comes'"
if [ -n "$installed" ]; then page_of_waits='man mtapi'; fi
workload=FILE # as `run` was given it, for what is told of waits
told_to=2     # where a proved program tells what it has to

# A file that can't be read, and why, if that is seen.
fault_of() {
    local why=''
    if [ "$1" != - ]; then
        if ! [ -e "$1" ]; then why=': no such file'; elif [ -d "$1" ]; then why=': a folder'; elif ! [ -r "$1" ]; then why=': not allowed'; fi
    fi
    echo "read fault: $(name_of "$1")$why"
}

# From now on standard input is this file.
read_from() {
    [ "$1" != - ] || return 0
    if ! [ -r "$1" ] || ! exec <"$1"; then
        tell "$(fault_of "$1")"
        leave "$read_fault"
    fi
}

# Copies a file that is named, a pipe too, into the scratch folder: a byte more than an input may have is enough. The third word
# is what is told if that fails, if not the file's name too.
take_file() {
    if [ "$1" = - ]; then
        head -c $((most_input + 1)) 2>/dev/null <&0 >"$scratch/$2" &
    else
        head -c $((most_input + 1)) 2>/dev/null -- "$1" >"$scratch/$2" &
    fi
    processes=($!)
    if ! wait "$!"; then
        tell "${3-$(fault_of "$1")}"
        leave "$read_fault"
    fi
    processes=()
}

name_of() {
    if [ "$1" = - ]; then echo "standard input"; else echo "$1"; fi
}

show() {
    if ! cat "$@" 2>/dev/null; then
        echo "mtapi: write fault" >&2
        leave "$write_fault"
    fi
}

has_journal() {
    LC_ALL=C grep -aq '^mtapi-journal ' "$scratch/$1"
}

need_journal() {
    if ! has_journal "$1"; then
        tell "$(name_of "$2"): no journal here: use run --journal"
        leave "$refused"
    fi
}

# Whether a report stands before the journal: it has no comments, and no line of a workload begins so.
begins_with_report() {
    LC_ALL=C grep -avm 1 '^ *\(#\|$\)' "$scratch/$1" | LC_ALL=C grep -aqE '^ *([!=] |[^ ]*\.)'
}

# What `run --journal` wrote has a report and no workload in front of its journal.
need_workload() {
    if has_journal "$1" && begins_with_report "$1"; then
        tell "$(name_of "$2"): a report and a journal, but no workload here: use check FILE $2"
        leave "$refused"
    fi
}

# The journal of a file, without what stands before it.
journal_in() {
    LC_ALL=C sed -n '/^mtapi-journal /,$p' "$scratch/$1"
}

# Fills `whole` with a workload and, behind it, the journal in what was kept of its run: what stands there begins in a line of its own.
take_both() {
    take_file "$1" whole
    take_file "$2" kept
    need_journal kept "$2"
    if [ -n "$(tail -c 1 "$scratch/whole")" ]; then echo >>"$scratch/whole"; fi
    journal_in kept >>"$scratch/whole"
}

# shellcheck disable=SC2317 # called by the traps
tell_where_waits_are() {
    tell "stopped; if a wait can't end, '$called bounded $workload' names it ($page_of_waits)"
}

# Behind a refusal of a workload: what tells more.
tell_where_mistakes_are() {
    [ "$1" -ne "$refused" ] || tell "'$called explain $workload' tells every mistake"
}

# Runs the proved program of a crate with the words that follow, in place of this process.
become_program() {
    GLIBC_TUNABLES=${GLIBC_TUNABLES-$heap_steps} exec "${within[@]}" "$(program_of "$1")" "${@:2}"
}

# Runs the program of a crate on a file of the scratch folder, into another one, and sets `ended_with` to its status. The
# unproved program says itself that it is.
program_on() {
    local crate=$1 in=$2 out=$3
    shift 3
    if is_proved "$crate"; then
        need_processor "$crate"
        (become_program "$crate" "$@") <"$scratch/$in" >"$scratch/$out" 2>&"$told_to" &
    else
        (run_unproved "$crate" "$@") <"$scratch/$in" >"$scratch/$out" &
    fi
    processes=($!)
    wait "$!"
    ended_with=$?
    processes=()
}

# `run [--journal] [FILE]`. For the end of the proved program the script waits, to tell of waits if it is stopped.
run() {
    local words=(run) status
    if [ "${1-}" = --journal ]; then words+=("$1") && shift; fi
    if [ $# -gt 0 ]; then read_from "$1"; fi
    if [ "${1--}" != - ]; then workload=$1; fi
    if ! is_proved "$command_crate"; then run_unproved "$command_crate" "${words[@]}"; fi
    need_processor "$command_crate"
    on_signals tell_where_waits_are
    (become_program "$command_crate" "${words[@]}") <&0 &
    processes=($!)
    wait "$!"
    status=$?
    tell_where_mistakes_are "$status"
    leave "$status"
}

# `check [FILE [KEPT]]`.
check() {
    make_scratch
    on_signals true
    case $# in
    0) take_file - whole 'read fault' ;;
    1) take_file "$1" whole && need_journal whole "$1" ;;
    2)
        take_file "$1" input
        take_file "$2" kept
        need_journal kept "$2"
        cat "$scratch/input" "$scratch/kept" >"$scratch/whole"
        answer_kept program_on whole check "$(wc -c <"$scratch/input")"
        ;;
    esac
    need_workload whole "${1--}"
    answer_kept program_on whole check
}

# Fills `whole` with a journal, behind its workload where that is known: of the files, or of a run of the first one.
take_run() {
    if [ $# -eq 2 ]; then
        take_both "$@"
        return
    fi
    take_file "${1--}" whole
    if [ "${1--}" = - ] || has_journal whole; then
        need_journal whole "${1--}"
        if begins_with_report whole; then
            journal_in whole >"$scratch/journal"
            mv "$scratch/journal" "$scratch/whole"
        fi
    else
        workload=$1
        if is_proved "$kept_crate"; then on_signals tell_where_waits_are; fi
        mv "$scratch/whole" "$scratch/input"
        run_by "$kept_crate" input whole keep
        on_signals true
    fi
}

# Keeps the names of a file, of which each line is a handle and a name of 1 to 15 letters.
take_names() {
    local wrong letters=$' !#-%\x27-;=?-~' # none that the SVG would have to write otherwise
    take_file "$1" given
    LC_ALL=C sed -E '/^($|#)/d; $a\' "$scratch/given" >"$scratch/names"
    wrong=$(LC_ALL=C grep -avxE "[atgqmsrh][0-9]+\.[0-9]+ [$letters]{1,15}" "$scratch/names" | head -n 1)
    if [ -n "$wrong" ]; then
        tell "$(name_of "$1"): no handle and name of 1 to 15 letters: $wrong"
        leave "$refused"
    fi
}

# Puts the names of a file before a run, as comments.
name_objects() {
    take_names "$1"
    sed 's/^/# /' "$scratch/names" | cat - "$scratch/whole" >"$scratch/named"
    mv "$scratch/named" "$scratch/whole"
}

# Shows a run by the program of a crate.
show_run() {
    local crate=$1 names=''
    shift
    if [ "${1-}" = --names ]; then names=$2 && shift 2; fi
    if [ "${1-}" = --bounded ]; then
        looks=${3-$default_looks}
        begin_on_file "$2" tell_of_fewer_looks
        run_by "$kept_crate" workload whole keep "$looks"
        on_signals true
    else
        make_scratch
        on_signals true
        take_run "$@"
    fi
    if [ -n "$names" ]; then name_objects "$names"; fi
    program_on "$crate" whole shown
    show "$scratch/shown"
    leave "$ended_with"
}

# `picture [--names NAMES] [FILE [KEPT]]` and `picture --bounded FILE [LOOKS]`.
picture() {
    show_run mtapi_picture "$@"
}

# `trace`, with the same.
trace() {
    show_run mtapi_trace "$@"
}

# `explain [FILE]`: of a file each mistake stands behind the file's name, as compilers have it.
explain() {
    if [ $# -eq 0 ]; then run_program mtapi_explain; fi
    make_scratch
    on_signals true
    take_file "$1" text
    program_on mtapi_explain text told
    place_mistakes "$(name_of "$1")" >"$scratch/placed"
    show "$scratch/placed"
    leave "$ended_with"
}

place_mistakes() {
    local name
    name=$(LC_ALL=C sed 's/[\\&/]/\\&/g' <<<"$1")
    LC_ALL=C sed -E "s/^line ([0-9]+), column ([0-9]+): /$bold${name//$'\n'/\\$'\n'}:\\1:\\2:$plain /" "$scratch/told"
}
