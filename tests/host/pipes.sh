#!/bin/sh
# Pipes: a pipe, a fifo and standard input are inputs, and a FILE may be a pipe or a device.
. "$(dirname -- "$0")/common.sh"

wide_station 150 1000 >big
"$TPP" patterns big >big.report || exit 1
[ "$(wc -c <big)" -gt 65536 ] || broken 'the large station is one piece'

wants 0 sh -c 'cat s | "$1" solve /dev/stdin' sh "$TPP"
is out s.report
wants 0 sh -c 'cat s.proof | "$1" check s /dev/stdin s.plan' sh "$TPP"
wants 0 sh -c 'cat s.plan | "$1" cost s /dev/stdin' sh "$TPP"
wants 0 sh -c '"$1" patterns /dev/stdin <big' sh "$TPP"
is out big.report
wants 0 sh -c 'cat big | "$1" patterns /dev/stdin' sh "$TPP"
is out big.report
wants 0 sh -c 'dd if=big bs=1000 2>/dev/null | "$1" patterns /dev/stdin' sh "$TPP"
is out big.report
wants 0 sh -c '{ head -c 5 s; sleep 0.2; tail -c +6 s; } | "$1" solve /dev/stdin' sh "$TPP"
is out s.report
if command -v bash >bash.path; then
    wants 0 bash -c '"$1" check <(cat s) <(cat s.proof) <(cat s.plan)' bash "$TPP"
    wants 0 bash -c '"$1" solve s --plan >(cat >taken; : >ended)' bash "$TPP"
    while [ ! -e ended ]; do sleep 0.1; done
    is taken s.plan
fi

mkfifo in plan.fifo proof.fifo
cat big >in &
wants 0 "$TPP" patterns in
is out big.report
cat plan.fifo >plan.taken &
first=$!
cat proof.fifo >proof.taken &
second=$!
wants 0 "$TPP" solve s --plan plan.fifo --proof proof.fifo
wait "$first" "$second"
is plan.taken s.plan
is proof.taken s.proof
[ -p plan.fifo ] || broken 'a fifo was replaced'

wants 0 "$TPP" solve s --plan /dev/null
[ -c /dev/null ] || broken '/dev/null was replaced'
wants 7 "$TPP" solve s --plan /dev/full
wants 0 sh -c '"$1" solve s --plan /dev/stdout | cat' sh "$TPP"
cat s.plan s.report >both
is out both
wants 6 "$TPP" solve d
mkdir d
wants 6 "$TPP" solve d
done_with pipes
