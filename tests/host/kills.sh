#!/bin/sh
# Kills: at 200 moments of a run that writes both FILEs, and at each of its system calls. Each FILE is old or whole.
. "$(dirname -- "$0")/common.sh"

# ready: both FILEs hold their old texts
ready() {
    cat old.plan >plan
    cat old.proof >proof
}

# judge WORDS..
judge() {
    tried=$((tried + 1))
    is_old_or_whole plan old.plan s.plan "$*"
    is_old_or_whole proof old.proof s.proof "$*"
    rm -f .tpp-*
}

ready
start=$(date +%s%N)
"$TPP" solve s --plan plan --proof proof >out
span=$(($(date +%s%N) - start))
ended=0
run=0
while [ "$run" -lt 200 ]; do
    run=$((run + 1))
    ready
    timeout -s KILL "0.$(printf %09d $((span / 200 * (run * 37 % 200 + 1))))" "$TPP" solve s --plan plan --proof proof >out 2>err
    [ $? != 0 ] || ended=$((ended + 1))
    judge "run $run"
done
[ "$ended" -lt 150 ] || broken "$ended of 200 runs ended before the kill"

# each system call by its name and its place, until a run ends by itself
ready
strace -o trace "$TPP" solve s --plan plan --proof proof >out 2>err || broken 'a run under strace'
for call in $(sed -n 's/^\([a-z0-9_]*\)(.*/\1/p' trace | sort -u); do
    at=0
    while :; do
        at=$((at + 1))
        ready
        strace -o killed -e "trace=$call" -e "inject=$call:signal=KILL:when=$at" "$TPP" solve s --plan plan --proof proof >out 2>err
        status=$?
        judge "$call $at"
        [ "$status" != 0 ] || break
    done
    is plan s.plan "after the last $call"
    is proof s.proof "after the last $call"
done
[ "$tried" -gt 250 ] || broken 'the run has few calls'
done_with kills
