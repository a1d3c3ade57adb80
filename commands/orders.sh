# `mtapi orders`: the reports of a workload's schedules. Sourced by `mtapi`.
# shellcheck shell=bash disable=SC2154 # what isn't set here is of the script that sources this

# `orders [--one | --journals] FILE [N]`.
orders() {
    local options=()
    if [[ $1 = --one || $1 = --journals ]]; then options=("$1") && shift; fi
    make_scratch
    on_signals true
    take_file "$1" workload
    search_orders "${options[@]}" "${@:2}"
    with_texts "$scratch/found" >"$scratch/page"
    mv "$scratch/page" "$scratch/found"
    if [ "${options[*]-}" = --journals ]; then
        keep_examples "$1"
    fi
    show "$scratch/found"
    leave "$ended_with"
}

# The program on the workload. Where it is proved it says how far it is, which is shown on a terminal every two seconds.
search_orders() {
    local watch
    if ! is_proved mtapi_orders; then
        program_on mtapi_orders workload found "$@"
        return
    fi
    : >"$scratch/said"
    on_signals tell_how_far
    if [ -t 2 ]; then show_how_far & watch=$!; fi
    program_on mtapi_orders workload found "$@" 2>"$scratch/said"
    if [ -n "${watch-}" ]; then kill "$watch" 2>/dev/null; fi
    grep -v ' so far$' "$scratch/said" >&2
}

# Until the scratch folder is removed, or this is ended.
show_how_far() {
    local told='' now
    while sleep 2 && [ -e "$scratch/said" ]; do
        now=$(tail -n 1 "$scratch/said" 2>/dev/null)
        if [[ $now = *' so far' && $now != "$told" ]]; then echo "$now" >&2 && told=$now; fi
    done
}

# shellcheck disable=SC2317 # called by the traps
tell_how_far() {
    local now
    now=$(tail -n 1 "$scratch/said")
    tell "stopped; ${now#mtapi: orders: }"
}

# Behind each line that a deadlock names, its text.
with_texts() {
    LC_ALL=C awk '
        FILENAME == ARGV[1] { text[FNR] = $0; next }
        /^deadlock [0-9]+$/ { is_deadlock = 1 }
        /^journal of / { is_deadlock = 0 }
        is_deadlock && /^  / {
            told = ""
            while (match($0, /(of|since) line [0-9]+/)) {
                told = told substr($0, 1, RSTART + RLENGTH - 1)
                number = substr($0, RSTART, RLENGTH); sub(/.* /, "", number)
                told = told " (" text[number] ")"
                $0 = substr($0, RSTART + RLENGTH)
            }
            $0 = told $0
        }
        { print }' "$scratch/workload" "$1"
}

# Puts each example into the folder FILE.orders, behind the workload, as `check`, `picture` and `trace` take it; the page stays.
keep_examples() {
    local folder=$1.orders example
    if [ "$1" = - ]; then folder=orders; fi
    mkdir "$scratch/examples"
    LC_ALL=C awk -v folder="$scratch/examples" -v page="$scratch/page" '
        /^journal of / { if (into != "") close(into) }
        /^journal of (report|deadlock|stop) [0-9]+$/ { into = folder "/" $3 "-" $4; next }
        /^journal of line [0-9]+ text [0-9]+$/ { into = folder "/line-" $4 "-" $6; next }
        { print > (into == "" ? page : into) }' "$scratch/found"
    end_last_line "$scratch/workload"
    if ! { mkdir -p -- "$folder" && rm -f -- "$folder"/{report,line,deadlock,stop}-[0-9]*; } 2>/dev/null; then
        tell "write fault: $folder"
        leave "$write_fault"
    fi
    for example in "$scratch"/examples/*; do
        [ -e "$example" ] || continue
        if ! cat "$scratch/workload" "$example" 2>/dev/null >"$folder/${example##*/}"; then
            tell "write fault: $folder"
            leave "$write_fault"
        fi
    done
    if [ -e "$scratch/page" ]; then mv "$scratch/page" "$scratch/found"; else : >"$scratch/found"; fi
}
