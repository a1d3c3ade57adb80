# A run of a program as it is written, unproved and with the toolchain's checks at run time. Sourced by `mtapi`.
# shellcheck shell=bash disable=SC2154,SC2034 # what isn't set here is of the script that sources this

# Without these words the command doesn't read its input, and nobody has to give one.
reads_input() {
    case "$*" in
    "$command_crate run" | "$command_crate run --journal" | "$command_crate check") true ;;
    "$command_crate"*) false ;;
    *) true ;;
    esac
}

# rt gives a program what comes without a pause of two seconds, and nothing from a terminal. So all is read here first.
take_input() {
    : >"$scratch/in"
    reads_input "$@" || return
    head -c "$most_input" 2>/dev/null <&0 >"$scratch/in" &
    processes=($!)
    if ! wait "$!"; then
        echo "mtapi: read fault" >&2
        leave "$read_fault"
    fi
    processes=()
    if [ "$(wc -c <"$scratch/in")" -ge "$most_input" ]; then
        tell "no answer: an unproved run takes less than $most_input bytes of input; './mtapi prove' first"
        leave "$no_answer"
    fi
}

words_of_the_look='--start no function' # of the process that is ended, by which it is known: `mtapi test` looks whether it still is

# Beside a run of rt, which is this process, rt looks for names that a check would refuse. That says nothing of the run,
# and takes as much of the processors as a fourth of all else, so it is ended; where it isn't found, it only takes its time.
end_the_look_at_names() {
    local child children
    for _ in {1..50}; do
        kill -0 "$1" 2>/dev/null || return
        mapfile -d ' ' -t children < <(cat /proc/"$1"/task/*/children 2>/dev/null)
        for child in "${children[@]}"; do
            if tr '\0' ' ' 2>/dev/null <"/proc/$child/cmdline" | grep -q -- "$words_of_the_look"; then
                kill "$child" 2>/dev/null && echo ended
                return
            fi
        done
        sleep 0.2
    done
}

# The program's own part of what was written to a file: the toolchain's lines stand behind it, and those of rt before it.
own_messages() {
    LC_ALL=C awk '
        { line[NR] = $0 }
        END {
            n = NR
            if (line[n] ~ /^run=/) n--
            if (line[n] ~ /^races: /) n--
            if (line[n] ~ /^checked: /) n--
            if (line[n] ~ /^interpreter: /) n--
            for (i = 1; i <= n; i++) if (line[i] !~ /^rt: /) print line[i]
        }' "$1"
}

# The status with which the program ended, from the last line that rt wrote to a file, or nothing if it has no answer:
# rt's own status has the same numbers for other things.
status_in() {
    tail -n 1 "$1" | sed -n 's/^run=ended status=\([0-9]*\).*/\1/p'
}

# Why the toolchain stopped the run: its line on the run with checks, or else all that it said.
tell_why_stopped() {
    local why
    why=$(sed -n 's/^checked: //p' "$scratch/err" | tail -n 1)
    if [ -z "$why" ]; then cat "$scratch/err" >&2; fi
    tell "no answer: the toolchain stopped the unproved run${why:+: $why}"
    case $why in
    *'time limit'*) tell "if a wait can't end, '$called bounded $workload' names it ($page_of_waits)" ;;
    esac
}

pass_on() {
    local status
    status=$(status_in "$scratch/err")
    if [ -z "$status" ]; then
        tell_why_stopped
        leave "$no_answer"
    fi
    if ! cat "$scratch/out" 2>/dev/null; then
        echo "mtapi: write fault" >&2
        leave "$write_fault"
    fi
    own_messages "$scratch/err" >&2
    if [ "${word-}" = run ]; then tell_where_mistakes_are "$status"; fi
    leave "$status"
}

# Compiled anew in each call, since the toolchain keeps no unproved program. Its interpreter can't run one that reads words.
run_unproved() {
    local crate=$1
    need_toolchain
    tell "$(
        if [ -e "$(program_of "$crate").proved" ]; then printf 'a source has changed since the proof, so '; fi
        echo "this run is of the unproved program and takes about a minute; './mtapi prove' proves and builds it: $takes"
    )"
    make_scratch
    on_signals tell_where_waits_are
    take_input "$@"
    shift
    (cd "$top/crates/$crate" && exec setsid rt try --steps 1 --seconds "$most_seconds" -- "$@") \
        <"$scratch/in" >"$scratch/out" 2>"$scratch/err" &
    processes=($!)
    end_the_look_at_names "$!" >/dev/null
    wait "${processes[0]}"
    processes=()
    pass_on
}
