# `mtapi judge`: whether a journal is legal by itself. Sourced by `mtapi`.
# shellcheck shell=bash disable=SC2154 # what isn't set here is of the script that sources this

# `judge [--names NAMES] [KEPT]`. Names go to the program as words: before the journal they would shift its lines.
judge() {
    local names='' words=()
    if [ "${1-}" = --names ]; then names=$2 && shift 2; fi
    if [ -z "$names" ] && [ $# -eq 0 ]; then run_program mtapi_judge; fi
    make_scratch
    on_signals true
    take_file "${1--}" kept
    need_journal kept "${1--}"
    if [ -n "$names" ]; then
        take_names "$names"
        words=(names)
        add_names
    fi
    program_on mtapi_judge kept judged "${words[@]}"
    show "$scratch/judged"
    leave "$ended_with"
}

# Each handle of the names that were taken, and its name behind it, as words.
add_names() {
    local each
    while IFS= read -r each; do words+=("${each%% *}" "${each#* }"); done <"$scratch/names"
}
