#!/bin/sh
# Limits: file sizes, memory, a full disk and a closed output. Each FILE is old or whole.
. "$(dirname -- "$0")/common.sh"

"$TPP" make 7 30 >big || exit 1
"$TPP" solve big --splits 0 --plan big.plan --proof big.proof >big.report
usual=$?

# a limit of file size ends the run by a signal, or is a failed write; what was there stays
for blocks in 0 1 2; do
    cp old.plan plan
    cp old.proof proof
    tried=$((tried + 1))
    (ulimit -f $blocks && exec "$TPP" solve big --splits 0 --plan plan --proof proof) >out 2>err
    status=$?
    case $status in "$usual" | 7 | 153) ;; *) broken "status $status at $blocks blocks" ;; esac
    is_old_or_whole plan old.plan big.plan "$blocks blocks"
    is_old_or_whole proof old.proof big.proof "$blocks blocks"
    rm -f .tpp-*
done

# memory
for kilobytes in 2000 4000 6000 8000 12000 16000 24000 32000 64000 128000 400000; do
    cp old.plan plan
    cp old.proof proof
    tried=$((tried + 1))
    (ulimit -v $kilobytes && exec "$TPP" solve big --splits 0 --plan plan --proof proof) >out 2>err
    status=$?
    # 127 and 139: too little to load the program
    case $status in "$usual") is out big.report "$kilobytes kB" ;; 8 | 127 | 139) ;; *) broken "status $status at $kilobytes kB" ;; esac
    is_old_or_whole plan old.plan big.plan "$kilobytes kB"
    is_old_or_whole proof old.proof big.proof "$kilobytes kB"
    no_file_beside "$kilobytes kB"
done

# a full disk, where a file system may be mounted
mkdir small
if mount -t tmpfs -o size=16k none small 2>err; then
    trap 'umount small; rm -rf "$work"' EXIT
    for pages in 0 1 2; do
        rm -f small/*
        cp old.plan small/plan
        cp old.proof small/proof
        dd if=/dev/zero of=small/left bs=4096 count=$pages 2>err
        dd if=/dev/zero of=small/filler bs=4096 2>err
        rm -f small/left
        tried=$((tried + 1))
        "$TPP" solve big --splits 0 --plan small/plan --proof small/proof >out 2>err
        status=$?
        case $pages,$status in *,7 | [12],"$usual") ;; *) broken "status $status with $pages pages free" ;; esac
        is_old_or_whole small/plan old.plan big.plan "$pages pages free"
        is_old_or_whole small/proof old.proof big.proof "$pages pages free"
        [ ! -e small/.tpp-0 ] || broken "a file was left with $pages pages free"
    done
else
    echo 'no file system may be mounted here: a full disk was not tried'
fi

# outputs that are closed or full
cp old.plan plan
tried=$((tried + 4))
"$TPP" solve s --plan plan >&-
[ $? = 7 ] || broken 'a closed output'
is plan s.plan 'a closed output'
"$TPP" solve s >/dev/full
[ $? = 7 ] || broken 'a full output'
"$TPP" solve s <&- >out
[ $? = 0 ] || broken 'a closed input'
status=$({ "$TPP" patterns big; echo $? >&3; } 3>&1 >/dev/full)
[ "$status" = 7 ] || broken "a full output of many lines: $status"
{ "$TPP" patterns big; echo $? >ended; } | head -n 1 >out
case $(cat ended) in 0 | 7) ;; *) broken "an output that is read no further: $(cat ended)" ;; esac
done_with limits
