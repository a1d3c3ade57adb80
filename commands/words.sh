# What `mtapi` says of its own words: which it takes, what each does, the help and the version. Sourced by `mtapi`.
# shellcheck shell=bash disable=SC2154 # what isn't set here is of the script that sources this

usage='usage: mtapi run [--journal] | mtapi gen N [W] | mtapi check' # as the command says it
most_tasks=19000 most_workers=16                                     # of `gen`
default_looks=2000                                                   # of `bounded`: some two seconds, and more give little more
most_looks=1000000                                                   # of a timeout
default_states=1000000 most_states=100000000                         # of `orders`

# Each use of a word: its group, how it is called, and what it does. The help and the manual page are made of this. The words
# of the group `repository` are of no use to an installed command.
word_table() {
    cat <<END
command|run [FILE]|runs the workload in FILE and writes its report
command|run --journal [FILE]|writes behind it each call of the run and its answer
command|check [FILE [KEPT]]|judges a workload with a journal behind it; or FILE by what 'run --journal' wrote into KEPT
command|gen N [W]|runs a workload of N tasks (1 to $most_tasks) with W workers (1 to $most_workers, or 4)
beside|judge [--names NAMES] [KEPT]|tells whether a journal, of 'run --journal' or of any program, is a legal history by itself; if not, the first line that isn't allowed, why, with the names that NAMES gives to handles, and what would be
beside|explain [FILE]|tells every mistake for which FILE is no workload
beside|verify [-v] FILE|runs the workload in FILE and checks its journal; writes report and verdict
beside|expect [-v] FILE REPORT|runs the workload in FILE; status 1 and the difference if it doesn't write REPORT
beside|bounded [-v] FILE [LOOKS]|runs it with LOOKS looks ($default_looks if not given) in place of each timeout=inf, and names the waits that ran out
beside|orders FILE [N]|tells the reports that the schedules of the workload in FILE give, or the texts of each line where these are many, and their deadlocks, as far as N states ($default_states if not given) show them
beside|orders --one FILE [N]|with status 1 unless one report is found and no deadlock
beside|orders --journals FILE [N]|puts the journal of a run with each report, or with each text of a line, and of the way to each deadlock, into the folder FILE.orders
beside|picture [--names NAMES] [FILE [KEPT]]|draws a run as an SVG: of what 'run --journal' wrote, or of the workload in FILE, which it runs unless KEPT has the journal; with the names that NAMES gives to handles
beside|picture --bounded FILE [LOOKS]|draws the run that 'bounded' makes
beside|trace [--names NAMES] [FILE [KEPT]]|writes such a run as a trace, which Perfetto and chrome://tracing show
beside|trace --bounded FILE [LOOKS]|writes the trace of the run that 'bounded' makes
repository|test|runs every test and every program, unproved, in minutes, and the tests in C where their library is proved; proves nothing
repository|prove|proves and builds the programs, which run from then on, until a source changes, and proves the libraries on which a program of one's own stands, and the one for C
repository|prove --command|proves and builds the programs alone
repository|new FOLDER [NAME]|makes a repository with a program NAME of one's own, with all that it stands on
repository|install [PREFIX]|puts the proved programs, and the library for C, below PREFIX (/usr/local if not given), where they need no toolchain
repository|uninstall [PREFIX]|removes them there
END
}

# The statuses, with when each comes.
status_table() {
    local failed='; with test, new, install and uninstall if they failed' no_toolchain="the toolchain isn't there, or "
    if [ -n "$installed" ]; then failed='' no_toolchain=''; fi
    cat <<END
0|if all was written; with check the verdict is yes
1|with judge if the journal isn't legal; with expect if the report is another one; with bounded if a wait ran out; with orders --one if what is found isn't one report alone$failed
2|if the words are none
3|if the input is refused
4, 5|if a read failed; if a write failed
6, 7, 8|if memory ran out; if a thread was refused; if the turns of the run are used up
9|with check and verify if the verdict isn't yes
10|with orders if there are more states than were followed
126|if there is no answer, which is told
127|if ${no_toolchain}the program was built for a newer processor
129, 130, 143|if it was stopped: by SIGHUP, by SIGINT (Ctrl-C), by SIGTERM
END
}

# The table without what an installed command hasn't.
used_words() {
    word_table | awk -F '|' -v installed="$installed" '!installed || $1 != "repository"'
}

# The words that this script takes.
all_words() {
    used_words | awk -F '|' '{ sub(/ .*/, "", $2); if (!seen[$2]++) print $2 }'
}

is_word() {
    all_words | grep -xF -e "$1" >/dev/null
}

# Whether an installed command lacks this word, which the script in the repository takes.
is_of_repository() {
    [ -n "$installed" ] && installed='' is_word "$1"
}

# The uses of a word, each as a line of usage; of another one the usage text of the command.
usage_of() {
    local uses
    uses=$(used_words | awk -F '|' -v word="$1" '{ first = $2; sub(/ .*/, "", first) } first == word { print "usage: mtapi " $2 }')
    echo "${uses:-$usage}"
}

# The word of these that is nearest to the first one, if it is near: two letters away at most, where exchanged neighbours are
# one.
nearest() {
    printf '%s\n' "${@:2}" | LC_ALL=C awk -v word="$1" '
        function least(a, b) { return a < b ? a : b }
        function steps(a, b,    i, j, d, same) {
            for (i = 0; i <= length(a); i++) d[i, 0] = i
            for (j = 0; j <= length(b); j++) d[0, j] = j
            for (i = 1; i <= length(a); i++) for (j = 1; j <= length(b); j++) {
                same = substr(a, i, 1) == substr(b, j, 1)
                d[i, j] = least(least(d[i - 1, j], d[i, j - 1]) + 1, d[i - 1, j - 1] + !same)
                if (i > 1 && j > 1 && substr(a, i, 1) == substr(b, j - 1, 1) && substr(a, i - 1, 1) == substr(b, j, 1))
                    d[i, j] = least(d[i, j], d[i - 2, j - 2] + 1)
            }
            return d[length(a), length(b)]
        }
        BEGIN { most = least(3, length(word)) }
        length(word) < 30 { it = steps(tolower(word), $0); if (it < most) { most = it; found = $0 } }
        END { print found }'
}

# This is no option, and which of these it may be meant to be.
tell_no_option() {
    local near
    near=$(nearest "$@")
    tell "no option '$1'${near:+: perhaps $near}"
}

# Why these words are none, where that can be said in a line.
tell_why() {
    local near words
    if is_of_repository "$1" && ! is_word "$1"; then
        tell "'$1' is a word of ./mtapi in the repository"
        return
    fi
    if ! is_word "$1"; then
        mapfile -t words <<<"$(all_words)"
        near=$(nearest "$1" "${words[@]}" --help --version)
        tell "no word '$1'${near:+: perhaps $near}"
        return
    fi
    case $1 in
    gen)
        if [ $# -gt 1 ] && ! is_number "$2" "$most_tasks"; then tell "no number of tasks: $2: 1 to 19,000"; fi
        if [ $# -gt 2 ] && ! is_number "$3" "$most_workers"; then tell "no number of workers: $3: 1 to $most_workers"; fi
        ;;
    bounded) if [ $# -eq 3 ] && ! is_look_count "$3"; then tell "no number of looks: $3: 0 to 1,000,000"; fi ;;
    orders)
        if [[ ${2-} = --one || ${2-} = --journals ]]; then set -- "$1" "${@:3}"; fi
        if [ $# -eq 3 ] && ! is_state_count "$3"; then tell "no number of states: $3: 1 to 100,000,000"; fi
        ;;
    run) if [ $# -gt 1 ] && ! is_file "$2"; then tell_no_option "$2" --journal; fi ;;
    picture | trace)
        if [ "${2-}" = --bounded ]; then
            if [ $# -eq 4 ] && ! is_look_count "$4"; then tell "no number of looks: $4: 0 to 1,000,000"; fi
        elif [ $# -gt 1 ] && [ "$2" != --names ] && ! is_file "$2"; then
            tell_no_option "$2" --names --bounded
        fi
        ;;
    judge) if [ $# -gt 1 ] && [ "$2" != --names ] && ! is_file "$2"; then tell_no_option "$2" --names; fi ;;
    prove) if [ $# -gt 1 ]; then tell_no_option "$2" --command; fi ;;
    esac
}

# Ends with the usage of the first word, or of the command.
tell_usage() {
    if [ $# -gt 0 ]; then tell_why "$@"; fi
    usage_of "${1-}" >&2
    echo "$called --help tells all words" >&2
    exit 2
}

# Whether this is a decimal number from 1 to the second one, without sign or leading zero.
is_number() {
    local LC_ALL=C
    [[ $1 =~ ^[1-9][0-9]{0,4}$ ]] && [ "$1" -le "$2" ]
}

is_look_count() {
    local LC_ALL=C
    [[ $1 =~ ^(0|[1-9][0-9]{0,6})$ ]] && [ "$1" -le "$most_looks" ]
}

is_state_count() {
    local LC_ALL=C
    [[ $1 =~ ^[1-9][0-9]{0,8}$ ]] && [ "$1" -le "$most_states" ]
}

# Whether a word stands where a file is named: - is standard input.
is_file() {
    [[ $1 = - || $1 != -* ]]
}

# Whether there are at most so many further words, and each can name a file.
are_files() {
    local most=$1 each
    shift
    [ $# -le "$most" ] || return
    for each in "$@"; do is_file "$each" || return; done
}

# Whether these are a file, and a number of looks if there are two.
is_bounded() {
    { [ $# -eq 1 ] || { [ $# -eq 2 ] && is_look_count "$2"; }; } && is_file "$1"
}

# Whether the script takes these words: each has a case in `mtapi` too.
are_known() {
    local word=$1
    shift
    if [ -n "$installed" ] && [[ $word != -* ]] && ! is_word "$word"; then return 1; fi
    case $word in
    verify | expect | bounded) if [ "${1-}" = -v ]; then shift; fi ;;
    run) if [ "${1-}" = --journal ]; then shift; fi ;;
    orders) if [[ ${1-} = --one || ${1-} = --journals ]]; then shift; fi ;;
    esac
    case $word in
    -h | --help) [ $# -eq 0 ] || { [ $# -eq 1 ] && is_word "$1"; } ;;
    --version | test) [ $# -eq 0 ] ;;
    run | explain) are_files 1 "$@" ;;
    judge)
        case ${1-} in
        --names) [ $# -ge 2 ] && are_files 2 "${@:2}" ;;
        *) are_files 1 "$@" ;;
        esac
        ;;
    check) are_files 2 "$@" ;;
    picture | trace)
        case ${1-} in
        --bounded) is_bounded "${@:2}" ;;
        --names) [ $# -ge 2 ] && are_files 3 "${@:2}" ;;
        *) are_files 2 "$@" ;;
        esac
        ;;
    gen) { [ $# -eq 1 ] || [ $# -eq 2 ]; } && is_number "$1" "$most_tasks" && is_number "${2-1}" "$most_workers" ;;
    verify) [ $# -eq 1 ] && is_file "$1" ;;
    expect) [ $# -eq 2 ] && are_files 2 "$@" ;;
    bounded) is_bounded "$@" ;;
    orders) { [ $# -eq 1 ] || { [ $# -eq 2 ] && is_state_count "$2"; }; } && is_file "$1" ;;
    prove) [ $# -eq 0 ] || { [ $# -eq 1 ] && [ "$1" = --command ]; } ;;
    new) [ $# -ge 1 ] && are_files 2 "$@" ;;
    install | uninstall) are_files 1 "$@" ;;
    *) false ;;
    esac
}

# A text in lines of at most 118 bytes, each word in its place, behind so many bytes that are its beginning.
in_columns() {
    LC_ALL=C awk -F '|' -v width="$1" '{
        n = split($2, words, " ")
        line = sprintf("%-" width "s", $1)
        for (i = 1; i <= n; i++) {
            if (length(line) + length(words[i]) > 118) { print line; line = sprintf("%-" width "s", "") }
            line = line (line ~ / $/ ? "" : " ") words[i]
        }
        print line
    }'
}

# The lines of the help on the words of a group.
help_on() {
    word_table | awk -F '|' -v group="$1" -v called="$called" '$1 == group { print "  " called " " $2 "|" $3 }' | in_columns 38
}

# The uses of one word, with what each does.
tell_help_on() {
    used_words | awk -F '|' -v word="$1" -v called="$called" '
        { first = $2; sub(/ .*/, "", first) }
        first == word { print called " " $2 "|" $3 }' | in_columns 38
}

tell_help() {
    local repository
    if [ $# -eq 1 ]; then
        tell_help_on "$1"
        return
    fi
    repository=$(help_on_repository)
    cat <<END
$usage

The command, which reads FILE, or else standard input, and writes standard output:
$(help_on command)

Beside the command:
$(help_on beside)

${repository:+$repository

}Statuses:
$(status_table | sed 's/^/  /' | in_columns 17)

- as FILE or KEPT is standard input.
END
}

help_on_repository() {
    [ -z "$installed" ] || return
    cat <<END
The repository:
$(help_on repository)
  .ci/run                             proves everything and runs every test: the merge gate
  ./mtapi --help, ./mtapi --version

Until the program is proved, each call compiles and runs it unproved, which takes about a minute and is said on standard
error. Workloads to run: examples/, crates/mtapi_examples/data/
Pages: README.md, docs/tutorial.md (to begin), docs/workload-text.md (what a workload may say),
docs/report.md (what the output means), docs/checking.md (check), docs/picture.md (picture),
docs/trace.md (trace)
END
}

# The version of the newest release in the changelog, and the line of the toolchain; of an installed command, as it was noted.
tell_version() {
    local version toolchain
    if [ -n "$installed" ]; then
        cat "$top/version"
        return
    fi
    version=$(sed -n 's/^## //p' "$top/CHANGELOG.md" | head -n 1)
    toolchain=$(rt version 2>/dev/null) || toolchain="no toolchain: 'rt' isn't on the PATH"
    printf 'mtapi %s\n%s\n' "$version" "$toolchain"
}
