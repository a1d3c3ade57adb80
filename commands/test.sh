# `mtapi test`: every #[test] and every program of the repository, unproved, several at a time; and the tests in C, where the
# archive that they stand on is proved: rt builds it in no other way. Sourced by `mtapi`.
# shellcheck shell=bash disable=SC2154,SC2034 # what isn't set here is of the script that sources this

test_seconds=300        # that one crate's tests, or one program, may take once they are compiled
test_memory=1500000     # kB that one of them may take
tests_passed=0 tests_failed=0
declare -A test_of

# Each crate with tests as NAME:tests, each program as NAME:program, and as NAME:cases one that has further inputs in a folder
# cases/, each behind the bytes to compile; the one with the most first.
test_runs() {
    (cd "$top/crates" && find . -path '*/src/*' -name '*.rt' -printf '%P %s\n') |
        awk '
            function visit(name,    found, n, i) {
                if (name in seen || !(name in below)) return 0
                seen[name] = 1
                n = split(below[name], found, " ")
                sum += size[name]
                for (i = 1; i <= n; i++) visit(found[i])
            }
            NR == FNR { sub(/\/.*/, "", $1); size[$1] += $2; next }
            { sub(/#.*/, "") }
            /:/ { name = $1; sub(/:.*/, "", name); sub(/^[^:]*:/, ""); below[name] = $0 }
            END { for (name in below) { split("", seen); sum = 0; visit(name); print sum, name } }' - "$top/crates.txt" |
        sort -k 1,1nr -k 2 | while read -r size name; do
        if grep -qrs --include='*.rt' '#\[test\]' "$top/crates/$name/src"; then echo "$size $name:tests"; fi
        if [ -e "$top/crates/$name/src/main.rt" ]; then echo "$size $name:program"; fi
        if [ -d "$top/crates/$name/cases" ]; then echo "$size $name:cases"; fi
    done
}

begin_tests_of() {
    (cd "$top/crates/$1" && exec setsid rt try --test --seconds "$test_seconds") \
        </dev/null >"$scratch/$1:tests.out" 2>"$scratch/$1:tests.err" &
}

# A program gets the words, the input and the files that stand beside its sources.
begin_program() {
    local words=() data=() file input=/dev/null
    cd "$top/crates/$1" || return
    if [ -e args ]; then mapfile -t words <args; fi
    if [ -e stdin ]; then input=stdin; fi
    if [ -d data ]; then
        while IFS= read -r file; do data+=(--data "$file=data/$file"); done < <(cd data && find . -type f -printf '%P\n' | sort)
    fi
    setsid rt try --steps 1 --seconds "$test_seconds" "${data[@]}" -- "${words[@]}" \
        <"$input" >"$scratch/$1:program.out" 2>"$scratch/$1:program.err" &
    cd "$top" || return
}

begin_cases() {
    (cd "$top/crates/$1" && exec setsid rt try --steps 1 --seconds "$test_seconds" --cases cases) \
        </dev/null >"$scratch/$1:cases.out" 2>"$scratch/$1:cases.err" &
}

begin_run() {
    case $1 in
    words:script) test_words >"$scratch/$1.out" 2>"$scratch/$1.err" & ;;
    prove:script) test_prove >"$scratch/$1.out" 2>"$scratch/$1.err" & ;;
    *:tests) begin_tests_of "${1%:*}" ;;
    *:cases) begin_cases "${1%:*}" ;;
    *) begin_program "${1%:*}" ;;
    esac
    processes+=("$!")
    test_of[$!]=$1
    begin_part "$1"
    case $1 in
    *:script) ;;
    *) end_the_look_at_names "$!" </dev/null >"$scratch/$1.look" 2>/dev/null & ;;
    esac
}

# Counts a run that ended: its name, its seconds, how many passed and failed, and what was wrong.
count_run() {
    local word=ok colour=$good
    if [ "$4" -ne 0 ]; then word=FAILED colour=$bad; fi
    tests_passed=$((tests_passed + $3)) tests_failed=$((tests_failed + $4))
    printf '%s%-6s%s %4d s  %s: %d passed, %d failed%s\n' "$colour" "$word" "$plain" "$2" "$1" "$3" "$4" "${5:+: $5}"
}

show_output() {
    { cat "$scratch/$1.out" && cat "$scratch/$1.err"; } | tail -n 60 | sed 's/^/    /'
}

# A run that ended without an answer counts as one that failed.
end_tests() {
    local passed failed status why='no answer'
    status=$(status_in "$scratch/$1.err")
    if [ -n "$status" ]; then why="status $status"; fi
    passed=$(sed -n 's/^test result: .* \([0-9]*\) passed; .*/\1/p' "$scratch/$1.out")
    failed=$(sed -n 's/^test result: .* \([0-9]*\) failed; .*/\1/p' "$scratch/$1.out")
    if [ "$status" = 0 ] && [ "${passed:-0}" -gt 0 ] && [ "${failed:-1}" -eq 0 ]; then
        count_run "$1" "$2" "$passed" 0
        return
    fi
    if [ "${failed:-0}" -eq 0 ]; then failed=1; fi
    count_run "$1" "$2" "${passed:-0}" "$failed" "$why"
    show_output "$1"
}

end_program() {
    local status wanted=0 folder=$top/crates/${1%:*} stdout=/dev/null why=''
    if [ -e "$folder/status" ]; then wanted=$(tr -d ' \n' <"$folder/status"); fi
    if [ -e "$folder/stdout" ]; then stdout=$folder/stdout; fi
    status=$(status_in "$scratch/$1.err")
    if [ -z "$status" ]; then
        why='no answer'
    elif [ "$status" -ne "$wanted" ]; then
        why="status $status in place of $wanted"
    elif ! cmp -s "$stdout" "$scratch/$1.out"; then
        why='another output than its file stdout'
    fi
    if [ -z "$why" ]; then
        count_run "$1" "$2" 1 0
        return
    fi
    count_run "$1" "$2" 0 1 "$why"
    show_output "$1"
}

# How each input of the folder cases/ ends stands in the file cases.wanted beside it; its output is compared where cases/ has it.
end_cases() {
    local name=${1%:*} failed passed
    failed=$(grep -ah '^case=' "$scratch/$1.out" "$scratch/$1.err" | sed 's/ runners=.* output=differs.*/ output=differs/; s/ runners=.*//' |
        diff "$top/crates/$name/cases.wanted" - | grep -c '^[<>]')
    passed=$(wc -l <"$top/crates/$name/cases.wanted")
    if [ "$failed" -eq 0 ]; then
        count_run "$1" "$2" "$passed" 0
        return
    fi
    count_run "$1" "$2" 0 "$failed" 'other ends than in its file cases.wanted'
    grep -ah '^case=' "$scratch/$1.out" "$scratch/$1.err" | sed 's/^/    /'
}

# All files of the script are read into one shell, where the function of a name is the one that was read last.
test_script() {
    local twice
    twice=$(cat "$top/mtapi" "$top"/commands/*.sh | grep -o '^[a-z_]*()' | sort | uniq -d | tr -d '\n')
    if [ -z "$twice" ]; then
        count_run "functions of the script" 0 1 0
    else
        count_run "functions of the script" 0 0 1 "two files have $twice"
    fi
}

test_c() {
    local why began=$SECONDS last
    why=$(why_no_library)
    if [ -n "$why" ]; then
        echo "the tests in C were left out: $why"
        return
    fi
    run_c_tests >"$scratch/c_tests.out" 2>"$scratch/c_tests.err" &
    processes=($!)
    wait "$!"
    processes=()
    last=$(tail -n 1 "$scratch/c_tests.out")
    if [[ $last =~ ^c/tests:\ ([0-9]+)\ passed,\ ([0-9]+)\ failed$ ]] && [ "${BASH_REMATCH[1]}" -gt 0 ]; then
        count_run "the tests in C" $((SECONDS - began)) "${BASH_REMATCH[1]}" "${BASH_REMATCH[2]}"
        [ "${BASH_REMATCH[2]}" -ne 0 ] || return
    else
        count_run "the tests in C" $((SECONDS - began)) 0 1 'no answer'
    fi
    show_output c_tests
}

# The tests of the script itself, whose last line tells how many passed and failed.
end_script_tests() {
    local last
    last=$(tail -n 1 "$scratch/$1.out")
    if [[ $last =~ ^[a-z]+:\ ([0-9]+)\ passed,\ ([0-9]+)\ failed$ ]] && [ "${BASH_REMATCH[1]}" -gt 0 ]; then
        count_run "$1" "$2" "${BASH_REMATCH[1]}" "${BASH_REMATCH[2]}"
        [ "${BASH_REMATCH[2]}" -ne 0 ] || return
    else
        count_run "$1" "$2" 0 1 'no answer'
    fi
    show_output "$1"
}

# What commands/unproved.sh ends beside a run was there beside one of these.
test_look_at_names() {
    if grep -qs ended "$scratch"/*.look; then
        count_run "the look at names beside a run" 0 1 0
    else
        count_run "the look at names beside a run" 0 0 1 \
            "rt starts none that commands/unproved.sh knows by its words '$words_of_the_look': unproved runs take longer"
    fi
}

# Tells of a run that has ended, and of what is left.
end_run() {
    local seconds=$((SECONDS - began_at[$1]))
    end_part "$1" 1
    case $1 in
    *:tests) end_tests "$1" "$seconds" ;;
    *:cases) end_cases "$1" "$seconds" ;;
    *:script) end_script_tests "$1" "$seconds" ;;
    *) end_program "$1" "$seconds" ;;
    esac
    if [ "$ended" -lt "${#parts[@]}" ]; then tell "$ended of ${#parts[@]} ended, $(time_left) left"; fi
}

look_at_ended() {
    local pid left=() gone=()
    for pid in "${processes[@]}"; do
        if kill -0 "$pid" 2>/dev/null; then left+=("$pid"); else gone+=("$pid"); fi
    done
    processes=("${left[@]}")
    for pid in "${gone[@]}"; do end_run "${test_of[$pid]}"; done
}

test_all() {
    local size name each
    need_toolchain
    make_scratch
    on_signals true
    expect_rate 1000000 80
    add_part prove:script 200000 200000
    add_part words:script 200000 200000
    while read -r size name; do add_part "$name" "$size" "$size"; done < <(test_runs)
    at_once=$(count_at_once "$test_memory")
    echo "every test and every program, unproved, $at_once at a time. This proves nothing: .ci/run does, and runs them again."
    SECONDS=0
    tell "${#parts[@]} crates and programs: $(time_left)"
    test_script
    for each in "${parts[@]}"; do
        while [ "${#processes[@]}" -ge "$at_once" ]; do
            sleep 0.2
            look_at_ended
        done
        begin_run "$each"
    done
    while [ "${#processes[@]}" -gt 0 ]; do
        sleep 0.2
        look_at_ended
    done
    echo "${#parts[@]} crates and programs in $SECONDS s"
    test_look_at_names
    test_c
    echo "$tests_passed passed, $tests_failed failed"
    if [ "$tests_failed" -ne 0 ] || [ "$tests_passed" -eq 0 ]; then leave 1; fi
    leave 0
}
