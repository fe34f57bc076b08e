#!/bin/sh
# System calls that fail, each at each of its places in a run that reads a station and writes both FILEs: the status is a documented
# one, each FILE is old or whole, and no file is left beside one. A call that a signal interrupts is made again.
. "$(dirname -- "$0")/common.sh"

ln -s far.plan plan

# inject CALL ERROR STATUSES..: from the first call of this name on to the last one
inject() {
    call=$1
    error=$2
    shift 2
    at=0
    while :; do
        at=$((at + 1))
        cat old.plan >plan
        cat old.proof >proof
        strace -o trace -e "trace=$call" -e "inject=$call:error=$error:when=$at" "$TPP" solve s --plan plan --proof proof >out 2>err
        status=$?
        grep -q INJECTED trace || break
        # the program wasn't loaded yet; while it is loaded, some files may be missing
        [ "$status" != 127 ] || continue
        tried=$((tried + 1))
        case " $* " in *" $status "*) ;; *) broken "status $status: $call $error at $at" ;; esac
        is_old_or_whole plan old.plan s.plan "$call $error at $at"
        is_old_or_whole proof old.proof s.proof "$call $error at $at"
        if [ "$status" = 0 ]; then
            is plan s.plan "$call $error at $at"
            is proof s.proof "$call $error at $at"
            is out s.report "$call $error at $at"
        fi
        [ ! -s err ] || broken "standard error: $call $error at $at"
        case $call in unlink*) rm -f .tpp-* ;; *) no_file_beside "$call $error at $at" ;; esac
    done
    [ "$status" = 0 ] || broken "the last run of $call: $status"
}

for error in EIO EACCES; do
    inject read $error 6
    inject openat $error 0 6 7
    inject statx $error 0 7
done
inject openat EMFILE 0 6 7
inject openat ENOSPC 0 6 7
for error in EIO ENOSPC EBADF; do
    inject write $error 7
    inject fsync $error 7
    # once a FILE is on the disk, an error at its close loses nothing
    inject close $error 0
done
for error in EIO ENOSPC EACCES EXDEV; do
    inject rename $error 7
    inject unlink $error 7
done
inject fchmod EPERM 7
inject readlink EIO 7
for call in read write openat fsync; do
    inject $call EINTR 0
done
inject close EINTR 0
inject read ENOMEM 6
inject openat ENOMEM 0 6 7 8
inject statx ENOMEM 0 7 8
done_with injections
