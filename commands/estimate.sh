# How long work of several parts will take, from what the parts that ended took. Sourced by `mtapi`.
# shellcheck shell=bash disable=SC2154,SC2034 # what isn't set here is of the scripts that source this

parts=()       # all that is to do, each with a weight, and the weight of the longest chain of parts that begins with it
ended=0        # of them
at_once=1      # how many jobs are at work
least_seconds=5 # a part that takes less was done before, and tells nothing of the others
declare -A weight_of chain_of state began_at

# What the parts that ended took: on all processors that they had, and on the clock.
weight_done=1 job_seconds=1 part_seconds=1

# Until parts have ended, so much weight is taken to last so many seconds.
expect_rate() {
    weight_done=$1 job_seconds=$2 part_seconds=$2
}

add_part() {
    parts+=("$1") weight_of[$1]=$2 chain_of[$1]=$3
}

# It is done, and no part of what is to do.
pass_over() {
    state[$1]=ended
}

begin_part() {
    state[$1]=running began_at[$1]=$SECONDS
}

# A part ended, which had so many jobs.
end_part() {
    local seconds=$((SECONDS - began_at[$1]))
    state[$1]=ended ended=$((ended + 1))
    if [ "$seconds" -ge "$least_seconds" ]; then
        weight_done=$((weight_done + weight_of[$1]))
        job_seconds=$((job_seconds + seconds * $2)) part_seconds=$((part_seconds + seconds))
    fi
}

# The seconds that are left: by the work for all processors, or by the longest chain, whichever takes longer.
seconds_left() {
    local each rest took work=0 chain=0
    for each in "${parts[@]}"; do
        [ "${state[$each]-}" != ended ] || continue
        rest=${weight_of[$each]}
        if [ "${state[$each]-}" = running ]; then
            took=$(((SECONDS - began_at[$each]) * weight_done / part_seconds))
            rest=$((rest - (took * 10 < rest * 9 ? took : rest * 9 / 10)))
        fi
        work=$((work + rest)) rest=$((chain_of[$each] - weight_of[$each] + rest))
        if [ "$rest" -gt "$chain" ]; then chain=$rest; fi
    done
    work=$((work * job_seconds / weight_done / at_once)) chain=$((chain * part_seconds / weight_done))
    echo $((work > chain ? work : chain))
}

# What is told of so many seconds.
about() {
    local minutes=$((($1 + 59) / 60))
    if [ "$minutes" -le 1 ]; then echo "a minute or less"; else echo "some $minutes minutes"; fi
}

time_left() {
    about "$(seconds_left)"
}
