# `mtapi verify`, `expect` and `bounded`: the command on files, whose answer is checked or compared. Sourced by `mtapi`.
# shellcheck shell=bash disable=SC2154,SC2034 # what isn't set here is of the script that sources this

# Has a program run the workload in a file of the scratch folder, with the words behind the file that it writes. Its faults end
# the script with their status; 1 and 9 are answers.
run_by() {
    local within=()
    if is_proved "$1"; then within=(timeout "$most_seconds"); fi
    program_on "$@"
    case $ended_with in
    0 | 1 | 9) return ;;
    124) tell "no answer within $most_seconds seconds; a wait that can't end: '$called bounded $workload' names it ($page_of_waits)" && leave "$no_answer" ;;
    esac
    show_told
    tell_where_mistakes_are "$ended_with"
    leave "$ended_with"
}

# Ends with what the program of kept runs, called by a function with the words behind it, makes of a file of the scratch folder.
# What it tells stands behind what it writes; the unproved one tells as it goes.
answer_kept() {
    exec {told_to}>"$scratch/told"
    "$1" "$kept_crate" "$2" shown "${@:3}"
    paint_verdict <"$scratch/shown" >"$scratch/painted"
    show "$scratch/painted"
    show_told
    leave "$ended_with"
}

show_told() {
    if [ -e "$scratch/told" ]; then cat "$scratch/told" >&2; fi
}

# What every call here does first: takes the file, and tells with -v what runs it.
begin_on_file() {
    make_scratch
    on_signals true
    if [ "$1" != - ]; then workload=$1; fi
    if is_proved "$command_crate"; then
        on_signals "${2-tell_where_waits_are}"
        if [ -n "$verbose" ]; then tell "by the proved program"; fi
    fi
    take_file "$1" workload
}

# Report and verdict, whose status is that of `check`.
verify() {
    begin_on_file "$1"
    answer_kept run_by workload verify
}

# Nothing and 0 where the report is the expected one, else the difference and 1.
expect() {
    begin_on_file "$1"
    take_file "$2" expected
    run_by "$command_crate" workload report run
    if cmp -s "$scratch/expected" "$scratch/report"; then
        tell "as expected"
        leave 0
    fi
    diff -u --label "$2" --label "the report of $1" "$scratch/expected" "$scratch/report" >"$scratch/difference"
    paint_difference <"$scratch/difference" >"$scratch/painted"
    show "$scratch/painted"
    leave 1
}

# shellcheck disable=SC2317 # called by the traps
tell_of_fewer_looks() {
    tell "stopped; with fewer looks than $looks it ends sooner: '$called bounded $workload LOOKS'"
}

# The report of a run in which each `timeout=inf` is so many looks, and each wait that ran out, with which the status is 1.
bounded() {
    looks=${2-$default_looks}
    begin_on_file "$1" tell_of_fewer_looks
    answer_kept run_by workload bounded "$looks"
}
