# The manual pages: of `mtapi`, made of what its help is made of, and of the workload text. Sourced by `mtapi`.
# shellcheck shell=bash disable=SC2154 # what isn't set here is of the script that sources this

# A text as roff has it.
roff() {
    sed 's/\\/\\e/g; s/-/\\-/g; s/^[.'\'']/\\\&&/'
}

# The uses of a group of words, each with what it does.
manual_on() {
    word_table | awk -F '|' -v group="$1" '$1 == group { print ".TP"; print ".B mtapi " $2; print $3 }' | sed 's/-/\\-/g'
}

manual_text() {
    cat <<END
.TH MTAPI 1 "" "$(head -n 1 "$stage/version")"
.SH NAME
mtapi \\- runs workloads on a task runtime that is proved, and judges, draws, traces and explains their runs
.SH SYNOPSIS
$(used_words | awk -F '|' '{ if (NR > 1) print ".br"; print ".B mtapi " $2 }' | sed 's/-/\\-/g')
.SH DESCRIPTION
A workload is the text of one run: settings, and what each caller asks, in order. A
.I FILE
that isn't given, or is \\-, is standard input.
.SS The command
$(manual_on command)
.SS Beside the command
$(manual_on beside)
.SH EXIT STATUS
$(status_table | awk -F '|' '{ print ".TP"; print ".B " $1; print $2 }' | roff | sed 's/^\\&\././')
.SH ENVIRONMENT
.TP
.B GLIBC_TUNABLES
is set to $heap_steps for the programs, if it isn't set.
.TP
.B NO_COLOR
if it is set, nothing is coloured.
.SH WHEN NOTHING COMES
If a workload waits for something that never comes, nothing is written. Interrupt it, and
.B mtapi bounded
.I FILE
names the waits, and who holds what they wait for.
.SH EXAMPLE
.nf
printf 'action a job=1 kind=add\\en' > first
printf 'start t job=1 args=1,2,3\\en' >> first
printf 'wait t timeout=inf\\en' >> first
mtapi run first
mtapi run \\-\\-journal first | mtapi check first \\-
mtapi picture first > first.svg
.fi
.SH SEE ALSO
.BR mtapi\\-workload (5)
END
}

# A page of docs/ as roff, up to the line that the second word finds: headings, lists, and of a table what each row says.
page_as_roff() {
    sed -zE 's/\[([^]]*)\]\([^)]*\)/\1/g' "$top/docs/$1.md" |
        sed -E "/^# /d; /$2/,\$d; s/\`//g; s/\*([^*]+)\*/\1/g" | roff | awk '
        /^\|\\-/ { next }
        /^\| (You see|Kind) / { next }
        /^## / { print ".SH " toupper(substr($0, 4)); next }
        /^\|/ { sub(/^\| /, ""); sub(/ \|$/, ""); at = index($0, " | "); rest = substr($0, at + 3); sub(/ \| /, ": ", rest)
                print ".TP"; print ".B " substr($0, 1, at - 1); print rest; next }
        /^\\- / { print ".IP \\(bu 2"; print substr($0, 4); next }
        /^$/ { print ".PP"; next }
        { sub(/^ +/, ""); print }'
}

# The manual page of the workload text, of the pages on it and on the kinds of actions.
workload_manual_text() {
    cat <<END
.TH MTAPI\\-WORKLOAD 5 "" "$(head -n 1 "$stage/version")"
.SH NAME
mtapi\\-workload \\- the text of a run of
.BR mtapi (1)
.SH DESCRIPTION
$(page_as_roff workload-text '^## What makes no difference')
.SH KINDS OF ACTIONS
$(page_as_roff actions '^## In a program')
.SH SEE ALSO
.BR mtapi (1)
END
}
