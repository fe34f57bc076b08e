#!/bin/sh
# Refused memory: each allocation fails alone, and each one with all that follow. The status is 8 with no output or a front of the usual
# one, or the answer is the usual one; each FILE is old or whole.
. "$(dirname -- "$0")/common.sh"

cat >refuse.c <<'END'
#define _GNU_SOURCE
#include <dlfcn.h>
#include <errno.h>
#include <stdlib.h>
#include <unistd.h>

/* REFUSE_AT: the allocation that fails, from 1 on. REFUSE_ALL: those behind it fail too. REFUSE_SEEN: a file that is made once one failed. */
static long at = -1, seen;
static int all;
static const char *sign;

__attribute__((constructor)) static void begin(void)
{
    const char *text = getenv("REFUSE_AT");
    all = getenv("REFUSE_ALL") != NULL;
    sign = getenv("REFUSE_SEEN");
    at = text ? atol(text) : 0;
    seen = 0;
}

static int is_refused(void)
{
    if (at <= 0)
        return 0;
    seen++;
    if (seen != at && !(all && seen > at))
        return 0;
    if (sign)
        symlink("refused", sign);
    errno = ENOMEM;
    return 1;
}

extern void *__libc_malloc(size_t), *__libc_calloc(size_t, size_t), *__libc_realloc(void *, size_t), *__libc_memalign(size_t, size_t);

void *malloc(size_t size) { return is_refused() ? NULL : __libc_malloc(size); }
void *calloc(size_t count, size_t size) { return is_refused() ? NULL : __libc_calloc(count, size); }
void *realloc(void *block, size_t size) { return is_refused() ? NULL : __libc_realloc(block, size); }
void *aligned_alloc(size_t align, size_t size) { return is_refused() ? NULL : __libc_memalign(align, size); }
int posix_memalign(void **block, size_t align, size_t size)
{
    *block = is_refused() ? NULL : __libc_memalign(align, size);
    return *block ? 0 : ENOMEM;
}
END
cc -shared -fPIC -O1 -w -o refuse.so refuse.c || exit 1

cat >none <<'END'
{"format":"tpp-station","version":1,"threshold":2,"conflict_price":5,"directions":["W","E"],
"platforms":[{"name":"1","dummy":false,"price":1000,"headway":2},{"name":"D","dummy":true,"price":100000,"headway":0}],
"paths":[],"incompatible":[],
"trains":[{"name":"R1","from":"W","to":"E","arrive":10,"depart":15,"dwell":1,"arrive_early":0,"arrive_late":0,"depart_early":0,
"depart_late":0,"platforms":["1"],"prefer":["1"],"off_price":100,"shift_price":10,"surcharges":[]}]}
END

# refuse STATUS WORDS..: the usual status, and the words, whose FILEs are `plan` and `proof`
refuse() {
    usual=$1
    shift
    rm -f plan proof
    "$TPP" "$@" >usual.out
    [ $? = "$usual" ] || broken "the usual status: $*"
    rm -f usual.plan usual.proof
    [ ! -e plan ] || cp plan usual.plan
    [ ! -e proof ] || cp proof usual.proof
    for how in alone all; do
        unset REFUSE_ALL
        [ "$how" = alone ] || export REFUSE_ALL=1
        at=0
        while :; do
            at=$((at + 1))
            rm -f refused plan proof
            REFUSE_AT=$at REFUSE_SEEN=$work/refused LD_PRELOAD=$work/refuse.so "$TPP" "$@" >out 2>err
            status=$?
            [ -L refused ] || break
            tried=$((tried + 1))
            if [ "$status" = 8 ]; then
                [ ! -s out ] || head -c "$(wc -c <out)" usual.out | cmp -s - out || broken "output of 8: allocation $at, $how: $*"
            else
                [ "$status" = "$usual" ] || broken "status $status: allocation $at, $how: $*"
                is out usual.out "allocation $at, $how: $*"
            fi
            [ ! -s err ] || broken "standard error: allocation $at, $how: $*"
            for file in plan proof; do
                [ ! -e $file ] || is $file usual.$file "allocation $at, $how: $*"
            done
            no_file_beside "allocation $at, $how: $*"
        done
        [ "$at" -gt 1 ] || broken "no allocation was refused: $*"
    done
}

refuse 0 solve s --plan plan --proof proof
refuse 10 solve none --plan plan --proof proof
refuse 0 check s s.proof s.plan
refuse 2 solve s --plan ./s
refuse 7 solve s --plan none/plan
refuse 0 trial 7 3
done_with allocations
