# `mtapi prove`: proves and builds the programs, several crates at a time. Sourced by `mtapi`.
#
# rt lets one run of a tree work at a time on a crate and those below it. So each crate is proved in a tree of its own, its
# lane: copies of the sources, links to the libraries below, and the crate's own `out`, which is moved there and back. At
# every moment `out` stands in one of both places, and whatever stops the script, the next call puts it back.
# shellcheck shell=bash disable=SC2154,SC2034 # what isn't set here is of the script that sources this

pause=60            # seconds between two lines of progress where nothing ends
memory_each=3000000 # kB that one job may take
most_jobs=4         # of one crate; a small one has one
small=20000         # bytes of sources

lanes=$top/out/lanes
left_to_do=() # the crates that were asked for
jobs_taken=0
toolchain='' processor=$default_processor
declare -A below size_of crate_of lock_of jobs_of sums

# The crates of these, each with the weight of the longest chain of crates that begins with it, its own weight, its size and
# those below it: the longest chain first. Most of the time goes into functions and hardly any into lemmas, some into each
# crate, and some into reading the proofs below.
crates_by_chain() {
    (cd "$top/crates" && find . \( -path '*/src/*' -o -path '*/proofs/*' \) \( -name '*.rt' -o -name '*.antt' \) -printf '%P %s\n') |
        awk -v wanted="$*" '
            function visit(name, seen,    found, n, i) {
                if (name in seen || !(name in deps)) return
                seen[name] = 1
                n = split(deps[name], found, " ")
                for (i = 1; i <= n; i++) visit(found[i], seen)
            }
            function chain(name,    most, user, length_of) {
                if (name in chains) return chains[name]
                most = 0
                for (user in needed) if (user != name && (user, name) in is_below) {
                    length_of = chain(user)
                    if (length_of > most) most = length_of
                }
                return chains[name] = most + weight[name]
            }
            NR == FNR { counted = /\.rt / ? $2 : $2 / 10; sub(/\/.*/, "", $1); size[$1] += counted; next }
            { sub(/#.*/, "") }
            /:/ { name = $1; sub(/:.*/, "", name); sub(/^[^:]*:/, ""); deps[name] = $0 }
            END {
                n = split(wanted, tops, " ")
                for (i = 1; i <= n; i++) visit(tops[i], needed)
                for (name in needed) {
                    split("", seen)
                    visit(name, seen)
                    weight[name] = size[name] + 10000
                    for (low in seen) if (low != name) {
                        is_below[name, low] = 1
                        lows[name] = lows[name] " " low
                        weight[name] += size[low] / 25
                    }
                }
                for (name in needed) printf "%d %s %d %d%s\n", chain(name), name, weight[name], size[name], lows[name]
            }' - "$top/crates.txt" | sort -k 1,1nr -k 2
}

# Whether a crate is proved as its sources stand, and of use here: a library that this toolchain built, or a program that this
# processor runs.
stands() {
    is_proved "$1" || return
    if is_program "$1"; then runs_here "$1"; else [ "$(kind_of "$1")" = "$toolchain" ]; fi
}

# Fills the list of the crates to prove.
read_order() {
    local chain name weight size lows
    while read -r chain name weight size lows; do
        below[$name]=$lows
        if ! is_program "$name" && stands "$name"; then
            pass_over "$name"
            continue
        fi
        add_part "$name" "$weight" "$chain"
        size_of[$name]=$size
    done < <(crates_by_chain "$@")
}

# What a lane holds of the crate goes back, unless another one was made there in the meantime.
put_back() {
    local lane=$lanes/$1
    if [ -d "$lane/crates/$1/out" ] && ! [ -e "$top/crates/$1/out" ]; then mv "$lane/crates/$1/out" "$top/crates/$1/out"; fi
    rm -rf "$lane"
}

# All that are there; no other call may be at work.
put_all_back() {
    local lane
    for lane in "$lanes"/*/; do
        if [ -d "$lane" ]; then put_back "$(basename "$lane")"; fi
    done
    rm -rf "$lanes"
}

# Those that this call made, once nothing works in them.
put_own_back() {
    local crate
    for crate in "${!lock_of[@]}"; do put_back "$crate"; done
    rmdir "$lanes" 2>/dev/null
}

# Of a call that was killed, rt may still be at work in a lane: what it proves is kept. rt locks the crate's folder.
wait_for_lanes() {
    local lane
    for lane in "$lanes"/*/; do
        lane=$lane/crates/$(basename "$lane")
        if [ -d "$lane" ] && ! flock -n "$lane" true; then
            tell "a proof that an earlier call began is still at work; waiting for it"
            flock "$lane" true &
            processes=($!)
            wait "$!"
            processes=()
        fi
    done
}

# Links the files of a folder at another place, or copies them where the file system has no links.
link_folder() {
    cp -al "$1" "$2" 2>/dev/null && return
    rm -rf "$2"
    cp -a "$1" "$2"
}

# A tree with this crate and those below it.
make_lane() {
    local crate=$1 lane=$lanes/$1 each part
    rm -rf "$lane"
    mkdir -p "$lane/crates"
    if [ -e "$top/HANDLES" ]; then cp -a "$top/HANDLES" "$lane/"; fi
    # shellcheck disable=SC2086 # the names are words of their own
    lines_of "$crate" ${below[$crate]} >"$lane/crates.txt" || return
    for each in $crate ${below[$crate]}; do
        mkdir "$lane/crates/$each" || return
        for part in src specs proofs; do
            if [ -d "$top/crates/$each/$part" ]; then cp -a "$top/crates/$each/$part" "$lane/crates/$each/" || return; fi
        done
    done
    for each in ${below[$crate]}; do
        mkdir "$lane/crates/$each/out" || return
        link_folder "$top/crates/$each/out/rlib" "$lane/crates/$each/out/rlib" || return
    done
    mkdir -p "$top/crates/$crate/out" && mv "$top/crates/$crate/out" "$lane/crates/$crate/out"
}

# Begins the proof of a crate with so many jobs, unless somebody else's rt works on it. Of a program the old one goes first,
# so that what stands there afterwards was made now: it is run once without words, and then only writes its usage text.
begin_crate() {
    local crate=$1 jobs=$2 lock each words=(lib)
    exec {lock}<"$top/crates/$crate" || give_up "$crate" "its folder could not be read"
    if ! flock -n "$lock"; then
        exec {lock}<&-
        return
    fi
    lock_of[$crate]=$lock
    sums[$crate]=${sums[$crate]-$(sum_of_sources "$crate")}
    make_lane "$crate" || give_up "$crate" "its files could not be copied"
    if is_program "$crate"; then
        words=(run)
        if [ "$processor" != "$default_processor" ]; then words+=(--cpu "$processor"); fi
        rm -f "$lanes/$crate/crates/$crate/out/$crate" "$lanes/$crate/crates/$crate/out/$crate.proved"
    fi
    (
        exec 9>&-
        for each in "${lock_of[@]}"; do exec {each}<&-; done
        cd "$lanes/$crate/crates/$crate" && exec setsid rt "${words[@]}" --jobs "$jobs" </dev/null >"$scratch/$crate.log" 2>&1
    ) &
    processes+=("$!")
    crate_of[$!]=$crate
    jobs_of[$crate]=$jobs
    begin_part "$crate"
    jobs_taken=$((jobs_taken + jobs))
}

is_ready() {
    local each
    [ -z "${state[$1]-}" ] || return
    for each in ${below[$1]}; do
        [ "${state[$each]-}" = ended ] || return
    done
}

# Gives the free processors to the crates that are ready, those with the longest chain first.
begin_ready() {
    local ready=() each free jobs
    [ "$jobs_taken" -lt "$at_once" ] || return
    for each in "${parts[@]}"; do
        if is_ready "$each"; then ready+=("$each"); fi
    done
    for each in "${!ready[@]}"; do
        free=$((at_once - jobs_taken))
        [ "$free" -ge 1 ] || return
        jobs=$((free / (${#ready[@]} - each)))
        if [ "$jobs" -gt "$most_jobs" ]; then jobs=$most_jobs; fi
        if [ "$jobs" -lt 1 ] || [ "${size_of[${ready[each]}]}" -lt "$small" ]; then jobs=1; fi
        begin_crate "${ready[each]}" "$jobs"
    done
}

# Whether rt has made this program since it began. The status of `rt run` is the program's own.
was_built() {
    [ -x "$(program_of "$1")" ] && grep -q '^logic=proved ' "$scratch/$1.log"
}

# Notes that a crate is proved as its sources stand, if they stand as they did when it began.
note_crate() {
    local crate=$1 kind=$toolchain
    if is_program "$crate"; then kind=$processor; fi
    [ "$(sum_of_sources "$crate")" = "${sums[$crate]}" ] || give_up "$crate" "a source changed in the meantime"
    keep_note "$crate" "${sums[$crate]}" "$kind" || give_up "$crate" "its note could not be kept"
}

end_crate() {
    local crate=${crate_of[$1]} status lock
    wait "$1"
    status=$?
    put_back "$crate"
    lock=${lock_of[$crate]}
    exec {lock}<&-
    unset "lock_of[$crate]"
    if is_program "$crate"; then
        status=1
        if was_built "$crate"; then status=0; fi
    fi
    [ "$status" -eq 0 ] || give_up "$crate"
    end_part "$crate" "${jobs_of[$crate]}"
    jobs_taken=$((jobs_taken - jobs_of[$crate]))
    note_crate "$crate"
    if is_program "$crate"; then tell "$crate is proved and built for $processor"; fi
}

look_at_crates() {
    local pid left=() gone=()
    for pid in "${processes[@]}"; do
        if kill -0 "$pid" 2>/dev/null; then left+=("$pid"); else gone+=("$pid"); fi
    done
    processes=("${left[@]}")
    for pid in "${gone[@]}"; do end_crate "$pid"; done
}

tell_progress() {
    local pid now=''
    for pid in "${processes[@]}"; do now+="${now:+, }${crate_of[$pid]}"; done
    tell "$(printf '%d of %d crates proved, %d:%02d so far, %s left' "$ended" "${#parts[@]}" \
        $((SECONDS / 60)) $((SECONDS % 60)) "$(time_left)")${now:+, now at $now}"
}

end_processes() {
    if [ "${#processes[@]}" -gt 0 ]; then
        kill "${processes[@]}" 2>/dev/null
        wait "${processes[@]}" 2>/dev/null
    fi
    put_own_back
}

# shellcheck disable=SC2317 # called by the traps
tell_stopped() {
    put_own_back
    [ "${#parts[@]}" -gt 0 ] || return
    tell "stopped with $ended of ${#parts[@]} crates proved; they are kept, and the next './mtapi prove' goes on from there"
}

# The crate, and why if its log doesn't say it.
give_up() {
    [ -n "${2-}" ] || cat "$scratch/$1.log" >&2
    tell "$1 could not be proved and built: ${2:-see above}"
    end_processes
    leave "$no_answer"
}

prove_crates() {
    local told=-1 next=0
    SECONDS=0
    while [ "$ended" -lt "${#parts[@]}" ]; do
        begin_ready
        if [ "$ended" -ne "$told" ] || [ "$SECONDS" -ge "$next" ]; then
            tell_progress
            told=$ended next=$((SECONDS + pause))
        fi
        sleep 0.5
        look_at_crates
    done
}

# One call at a time: a second one says so and waits.
take_lock() {
    mkdir -p "$top/out"
    exec 9>"$top/out/prove.lock"
    if ! flock -n 9; then
        tell "another './mtapi prove' is at work here; waiting for it"
        flock 9 &
        processes=($!)
        wait "$!"
        processes=()
    fi
}

# What was asked for: `--command` stands for the programs alone.
wanted_crates() {
    if [ "${1-}" = --command ]; then echo "${programs[@]}"; else echo "${programs[@]}" "${libraries[@]}" "$c_crate"; fi
}

read_wanted() {
    local each
    if are_new "$(words_of_processor)"; then processor=$new_processor; fi
    toolchain=$(rt version)
    for each in $(wanted_crates "$@"); do
        if ! stands "$each"; then left_to_do+=("$each") sums[$each]=$(sum_of_sources "$each"); fi
    done
    if [ "${#left_to_do[@]}" -gt 0 ]; then read_order "${left_to_do[@]}"; fi
}

prove_all() {
    need_toolchain
    make_scratch
    on_signals tell_stopped
    take_lock
    wait_for_lanes
    put_all_back
    expect_rate 100000 250
    read_wanted "$@"
    at_once=$(count_at_once "$memory_each")
    if [ "${#parts[@]}" -gt 0 ]; then
        tell "proving ${#parts[@]} crates, for ${left_to_do[*]}: $(time_left) with $at_once jobs at a time"
        prove_crates
    fi
    rmdir "$lanes" 2>/dev/null
    tell "proved and built for $(processor_of "$command_crate"): './mtapi WORDS' runs the proved program, until a source changes"
    leave 0
}
