# Colours, where both standard output and standard error are a terminal and NO_COLOR isn't set. Sourced by `mtapi`.
# shellcheck shell=bash disable=SC2034 # used by the script that sources this

good='' bad='' bold='' plain=''
if [ -t 1 ] && [ -t 2 ] && [ -z "${NO_COLOR-}" ] && [ "${TERM-dumb}" != dumb ]; then
    good=$'\e[32m' bad=$'\e[31m' bold=$'\e[1m' plain=$'\e[0m'
fi

# These paint what comes from standard input.
paint_verdict() {
    sed "s/^yes\$/$good&$plain/; s/^no: .*/$bad&$plain/"
}

paint_difference() {
    sed "s/^+.*/$good&$plain/; s/^-.*/$bad&$plain/"
}
