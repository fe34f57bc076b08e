#!/bin/sh
# An input that is replaced by a rename while it is read, before each of its reads in turn: the answer is that of the old or of the new
# station, never of a blend.
. "$(dirname -- "$0")/common.sh"

cat >replace.c <<'END'
#define _GNU_SOURCE
#include <stdio.h>
#include <stdlib.h>
#include <sys/syscall.h>
#include <unistd.h>

/* REPLACE_AT: the read, from 1 on, before which `next` is renamed to `station`. */
ssize_t read(int file, void *to, size_t most)
{
    static long seen;
    const char *at = getenv("REPLACE_AT");
    if (at && ++seen == atol(at))
        rename("next", "station");
    return syscall(SYS_read, file, to, most);
}
END
cc -shared -fPIC -O1 -w -o replace.so replace.c || exit 1

late=0
for blanks in 1000 1250 1500 1750 2000 2250 2500 2750 3000 3250; do
    wide_station 100 $blanks >first
    sed 's/"shift_price":10/"shift_price":99/g' first >second
    "$TPP" patterns first >first.report || exit 1
    "$TPP" patterns second >second.report || exit 1
    cmp -s first.report second.report && broken 'the stations are equal'
    [ "$(wc -c <first)" -gt 65536 ] || broken "one read takes $blanks blanks"
    for at in 1 2 3 4 5 6; do
        tried=$((tried + 1))
        cp first station
        cp second next
        REPLACE_AT=$at LD_PRELOAD=$work/replace.so "$TPP" patterns station >out 2>err || broken "status $?, read $at at $blanks blanks"
        cmp -s out first.report || cmp -s out second.report || broken "a blend at read $at with $blanks blanks"
        [ -e next ] || late=$((late + 1))
    done
done
[ "$late" -ge 20 ] || broken "only $late inputs were replaced"
done_with replaced
