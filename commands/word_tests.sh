# Tests of the words of `mtapi`, a part of `mtapi test`: plain use, wrong use and a closed output of each. Sourced by `mtapi`.
#
# What is tested is the script: which input it gives to which program, what it makes of the answer, and the status. So a
# stand-in for the toolchain gives each program's answer from a stored file, in a tree that has no proved program; that the
# programs answer so is for their own tests, and `bench/first_answer.py` calls the words with the toolchain itself.
# shellcheck shell=bash disable=SC2154 # what isn't set here is of the script that sources this

stand='' words_passed=0 words_failed=0 work_bytes=0

# In the folder of a crate the stand-in is called as `rt try --steps 1 --seconds N -- WORDS`. It keeps what it was given.
make_stand_in() {
    stand=$scratch/words
    mkdir -p "$stand/bin" "$stand/stored" "$stand/.ci" "$stand/crates"
    cp -R "$top/mtapi" "$top/commands" "$top/CHANGELOG.md" "$top/crates.txt" "$stand/"
    cp "$top/.ci/programs.sh" "$stand/.ci/"
    for each in "${programs[@]}"; do mkdir "$stand/crates/$each"; done
    cat >"$stand/bin/rt" <<'END'
#!/usr/bin/env bash
case $1 in
version) echo 'a stand-in' ;;
try)
    shift 6
    name=$STORED/$(basename "$PWD")
    for each in "$@"; do name+=.$each; done
    cat >"$name.in"
    cat "$name.out"
    if [ -e "$name.err" ]; then cat "$name.err" >&2; fi
    echo "run=ended status=$(cat "$name.status" 2>/dev/null || echo 0) runners=1 proved=no" >&2
    ;;
*) exit 1 ;;
esac
END
    chmod +x "$stand/bin/rt"
}

# From now on this program answers so: its words behind dots, the output, and the status if it isn't 0.
store() {
    printf '%s' "$2" >"$stand/stored/$1.out"
    echo "${3-0}" >"$stand/stored/$1.status"
}

count_words() {
    if [ "$1" = right ]; then
        words_passed=$((words_passed + 1))
    else
        words_failed=$((words_failed + 1))
        printf '%s\n' "$2" | head -n 20
    fi
}

# Calls the script by this line: its status, how the output begins, which is empty if nothing is wanted, and what the error
# output has.
try_words() {
    local status=$1 out=$2 err=$3 line=$4 got output errors
    (cd "$stand" && PATH=$stand/bin:$PATH STORED=$stand/stored exec bash -c "$line") </dev/null >"$stand/out" 2>"$stand/err"
    got=$?
    output=$(cat "$stand/out") errors=$(cat "$stand/err")
    if [ "$got" -eq "$status" ] && [[ $output = "$out"* ]] && [[ -n $out || -z $output ]] && [[ $errors = *"$err"* ]]; then
        count_words right
    else
        count_words wrong "$line: status $got in place of $status, or another text: $output $errors"
    fi
}

# What a program was given is this file.
was_given() {
    if cmp -s "$stand/stored/$1.in" "$stand/$2"; then
        count_words right
    else
        count_words wrong "$1 was given something else than $2 has: $(head -c 400 "$stand/stored/$1.in")"
    fi
}

make_inputs() {
    printf 'mutex m id=1\nlock m timeout=inf\nbegin\ncaller c\nmutex_get m id=1\n# timeout=inf\nlock m timeout=inf\n' >"$stand/work"
    sed '/^#/!s/timeout=inf/timeout=500/' "$stand/work" >"$stand/work500"
    printf '= main 2 1\n! c 7 MRAPI_TIMEOUT\n' >"$stand/report"
    cat >"$stand/journal" <<'END'
mtapi-journal 2 workers=1 callers=2 tasks=1024 actions=64 groups=128 queues=16 objects=16 priorities=4 generations=4294967295
c0 initialize -> ok
c0 mutex_create 1 0 -> handle m1.0
c0 mutex_look m1.0 0 -> number 1
c0 release -> ok
c1 enter -> ok
c1 mutex_get 1 -> handle m1.0
c1 mutex_look m1.0 1 -> status MRAPI_TIMEOUT after 499
c0 close -> ok
w0 pick -> stop
c0 final -> ok
END
    cat "$stand/report" "$stand/journal" >"$stand/kept"
    cat "$stand/work" "$stand/kept" >"$stand/both"
    cat "$stand/work" "$stand/journal" >"$stand/whole"
    cat "$stand/work500" "$stand/journal" >"$stand/whole500"
    printf '# mine\n\nm1.0 the guard\n' >"$stand/names"
    printf '# m1.0 the guard\n' | cat - "$stand/whole" >"$stand/named"
    work_bytes=$(wc -c <"$stand/work")
}

# Words that are none, and what is told.
try_wrong_words() {
    local usage_line="usage: mtapi run [--journal]" each
    try_words 2 '' "$usage_line" './mtapi'
    try_words 2 '' "no word 'rnu': perhaps run" './mtapi rnu'
    try_words 2 '' "no word 'it'" './mtapi it'
    try_words 2 '' "no option '--jurnal': perhaps --journal" './mtapi run --jurnal'
    try_words 2 '' 'usage: mtapi run [FILE]' './mtapi run a b'
    try_words 2 '' 'usage: mtapi check [FILE [KEPT]]' './mtapi check a b c'
    for each in 0 20000 05 +5; do try_words 2 '' "no number of tasks: $each: 1 to 19,000" "./mtapi gen $each"; done
    for each in 0 17; do try_words 2 '' "no number of workers: $each: 1 to 16" "./mtapi gen 5 $each"; done
    try_words 2 '' 'usage: mtapi gen N [W]' './mtapi gen'
    for each in picture trace; do
        try_words 2 '' "usage: mtapi $each [--names NAMES] [FILE [KEPT]]" "./mtapi $each a b c"
        try_words 2 '' "no option '--name': perhaps --names" "./mtapi $each --name a b"
        try_words 2 '' 'no number of looks: x: 0 to 1,000,000' "./mtapi $each --bounded a x"
    done
    try_words 2 '' 'usage: mtapi judge [--names NAMES] [KEPT]' './mtapi judge a b'
    try_words 2 '' "no option '--name': perhaps --names" './mtapi judge --name a'
    try_words 2 '' 'usage: mtapi explain [FILE]' './mtapi explain a b'
    try_words 2 '' 'usage: mtapi verify [-v] FILE' './mtapi verify'
    try_words 2 '' 'usage: mtapi expect [-v] FILE REPORT' './mtapi expect a'
    try_words 2 '' 'usage: mtapi bounded [-v] FILE [LOOKS]' './mtapi bounded'
    try_words 2 '' 'no number of looks: 1000001: 0 to 1,000,000' './mtapi bounded a 1000001'
    try_words 2 '' 'usage: mtapi orders FILE [N]' './mtapi orders'
    try_words 2 '' 'no number of states: 0: 1 to 100,000,000' './mtapi orders a 0'
    try_words 2 '' 'usage: mtapi test' './mtapi test it'
    try_words 2 '' "no option 'it'" './mtapi prove it'
    try_words 2 '' "no option '--comand': perhaps --command" './mtapi prove --comand'
    try_words 2 '' "no option '-v'" './mtapi run -v'
    try_words 2 '' 'usage: mtapi new FOLDER [NAME]' './mtapi new'
    try_words 2 '' 'usage: mtapi install [PREFIX]' './mtapi install a b'
    try_words 2 '' 'usage: mtapi uninstall [PREFIX]' './mtapi uninstall a b'
}

# Words that need no program's answer.
try_other_words() {
    local each
    try_words 0 "$usage" '' './mtapi --help'
    try_words 0 "$usage" '' './mtapi -h'
    for each in $(all_words); do try_words 0 "./mtapi $each" '' "./mtapi $each --help"; done
    try_words 0 'mtapi ' '' './mtapi --version'
    for each in run check picture trace explain verify bounded orders; do
        try_words 4 '' 'mtapi: read fault: nothing: no such file' "./mtapi $each nothing"
    done
    try_words 4 '' 'mtapi: read fault: work: ' 'chmod a-r work; [ -r work ] && rm work && mkdir work; ./mtapi expect work report'
    make_inputs_again
    try_words 3 '' 'work: no journal here: use run --journal' './mtapi check work'
    try_words 3 '' 'standard input: no journal here: use run --journal' './mtapi picture <work'
    try_words 3 '' 'kept: a report and a journal, but no workload here' './mtapi check kept'
    try_words 1 '' "nothing was installed: mtapi_cli isn't proved" './mtapi install place'
    try_words 1 '' 'no mtapi is installed below ' './mtapi uninstall place'
    try_words 1 '' 'lies in the repository of mtapi' './mtapi new crates/mine'
}

make_inputs_again() {
    rm -rf "$stand/work"
    make_inputs
}

try_command_words() {
    store mtapi_cli.run 'the report'
    try_words 0 'the report' 'this run is of the unproved program' './mtapi run work'
    was_given mtapi_cli.run work
    try_words 0 'the report' '' './mtapi run <work'
    try_words 5 '' 'write fault' './mtapi run work >&-'
    store mtapi_cli.run '' 3
    try_words 3 '' "'./mtapi explain work' tells every mistake" './mtapi run work'
    store mtapi_cli.run.--journal "$(cat "$stand/kept")"$'\n'
    try_words 0 '= main 2 1' '' './mtapi run --journal work'
    store mtapi_cli.gen.5.2 'tasks 5'
    try_words 0 'tasks 5' '' './mtapi gen 5 2'
    try_words 5 '' 'write fault' './mtapi gen 5 2 >&-'
    store "mtapi_kept.check.$work_bytes" yes
    try_words 0 yes '' './mtapi check work kept'
    was_given "mtapi_kept.check.$work_bytes" both
    try_words 0 yes '' './mtapi check work - <kept'
    store mtapi_kept.check yes
    try_words 0 yes '' './mtapi check whole'
    was_given mtapi_kept.check whole
    try_words 5 '' 'write fault' './mtapi check whole >&-'
    store mtapi_kept.check 'no: not a run' 9
    try_words 9 'no: not a run' '' './mtapi check <whole'
    store mtapi_kept.verify "$(cat "$stand/report")"$'\nno: not a run' 9
    try_words 9 '= main 2 1' '' './mtapi verify work'
    store mtapi_kept.verify "$(cat "$stand/report")"$'\nyes'
    try_words 0 "$(cat "$stand/report")"$'\n'yes '' './mtapi verify work'
    was_given mtapi_kept.verify work
    try_words 5 '' 'write fault' './mtapi verify work >&-'
    store mtapi_cli.run "$(cat "$stand/report")"$'\n'
    try_words 0 '' 'mtapi: as expected' './mtapi expect work report'
    try_words 1 '--- journal' '' './mtapi expect work journal'
    try_words 5 '' 'write fault' './mtapi expect work journal >&-'
}

try_show_words() {
    local each
    store mtapi_kept.keep "$(cat "$stand/whole")"$'\n'
    store mtapi_kept.keep.500 "$(cat "$stand/whole500")"$'\n'
    for each in picture trace; do
        store "mtapi_$each" "a $each"
        try_words 0 "a $each" '' "./mtapi $each work kept"
        was_given "mtapi_$each" whole
        try_words 0 "a $each" '' "./mtapi $each work"
        was_given "mtapi_$each" whole
        was_given mtapi_kept.keep work
        try_words 0 "a $each" '' "./mtapi $each <kept"
        was_given "mtapi_$each" journal
        try_words 0 "a $each" '' "./mtapi $each --names names work kept"
        was_given "mtapi_$each" named
        try_words 3 '' 'work: no handle and name of 1 to 15 letters: mutex m id=1' "./mtapi $each --names work work kept"
        try_words 0 "a $each" '' "./mtapi $each --bounded work 500"
        was_given "mtapi_$each" whole500
        was_given mtapi_kept.keep.500 work
        try_words 5 '' 'write fault' "./mtapi $each work kept >&-"
    done
}

try_judge_words() {
    store mtapi_judge 'legal'
    try_words 0 legal '' './mtapi judge kept'
    was_given mtapi_judge kept
    store 'mtapi_judge.names.m1.0.the guard' 'illegal line 2' 1
    try_words 1 'illegal line 2' '' './mtapi judge --names names kept'
    was_given 'mtapi_judge.names.m1.0.the guard' kept
    try_words 1 'illegal line 2' '' './mtapi judge --names names <kept'
    try_words 3 '' 'work: no handle and name of 1 to 15 letters: mutex m id=1' './mtapi judge --names work kept'
    try_words 5 '' 'write fault' './mtapi judge kept >&-'
}

try_further_words() {
    store mtapi_explain $'line 2, column 6: no name\n' 3
    try_words 3 'work:2:6: no name' '' './mtapi explain work'
    was_given mtapi_explain work
    try_words 3 'line 2, column 6: no name' '' './mtapi explain <work'
    try_words 5 '' 'write fault' './mtapi explain work >&-'
    store mtapi_kept.bounded.500 "$(cat "$stand/report")"$'\n' 1
    echo 'mtapi: line 7: lock of c ran out' >"$stand/stored/mtapi_kept.bounded.500.err"
    try_words 1 '= main 2 1' 'line 7: lock of c ran out' './mtapi bounded work 500'
    was_given mtapi_kept.bounded.500 work
    try_words 5 '' 'write fault' './mtapi bounded work 500 >&-'
    store mtapi_kept.bounded.500 '' 6
    try_words 6 '' '' './mtapi bounded work 500'
    store mtapi_kept.bounded.500 "$(cat "$stand/report")"$'\n'
    try_words 0 '= main 2 1' '' './mtapi bounded work 500'
    store mtapi_orders.5 'one report'
    try_words 0 'one report' '' './mtapi orders work 5'
    was_given mtapi_orders.5 work
    try_words 5 '' 'write fault' './mtapi orders work 5 >&-'
    store mtapi_orders.--one 'two reports' 1
    try_words 1 'two reports' '' './mtapi orders --one work'
    store mtapi_orders.--journals $'a page\njournal of report 1\nmtapi-journal 2\n'
    try_words 0 'a page' '' "./mtapi orders --journals work && tail -n 1 work.orders/report-1 | grep -qx 'mtapi-journal 2'"
}

# Programs that count as proved here: each answers with its name and its words. No toolchain is asked for them.
make_proved_programs() {
    local each
    cp -R "$top/docs" "$stand/"
    for each in "${programs[@]}"; do
        mkdir -p "$stand/crates/$each/src" "$stand/crates/$each/out"
        : >"$stand/crates/$each/src/main.rt"
        printf '#!/bin/sh\ncat >/dev/null\necho "%s $*"\n' "$each" >"$stand/crates/$each/out/$each"
        chmod +x "$stand/crates/$each/out/$each"
    done
    (
        top=$stand
        for each in "${programs[@]}"; do keep_note "$each" "$(sum_of_sources "$each")" "$default_processor"; done
    ) 2>/dev/null
}

# What is installed has all parts that its words need.
try_installed_words() {
    local each there=place/bin/mtapi
    make_proved_programs
    try_words 0 "$stand/place/bin/mtapi runs the proved programs" '' './mtapi install place'
    try_words 0 'mtapi ' '' "$there --version"
    try_words 0 'mtapi_cli run' '' "$there run work"
    try_words 0 'mtapi_cli gen 5 2' '' "$there gen 5 2"
    try_words 0 mtapi_judge '' "$there judge kept"
    for each in explain orders; do try_words 0 "mtapi_$each" '' "$there $each work"; done
    for each in check picture trace; do try_words 0 mtapi_ '' "$there $each work kept"; done
    for each in 'verify work' 'expect work report' 'bounded work 500'; do
        # shellcheck disable=SC2086 # a word and its files
        (cd "$stand" && "$there" $each) </dev/null >/dev/null 2>"$stand/err"
        if grep -q 'not found\|No such file' "$stand/err"; then count_words wrong "$there $each: $(cat "$stand/err")"; else count_words right; fi
    done
    try_words 0 'mtapi was removed from ' '' './mtapi uninstall place'
    try_words 0 '' '' '! [ -e place/lib/mtapi ]'
}

test_words() {
    local each
    make_stand_in
    make_inputs
    try_wrong_words
    try_other_words
    try_command_words
    try_show_words
    try_judge_words
    try_further_words
    try_installed_words
    echo "words: $words_passed passed, $words_failed failed"
}
