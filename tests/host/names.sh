#!/bin/sh
# Names: one file under two names is refused as equal names are, before the work; other names are taken. A FILE that can't be written
# is told before the work too.
. "$(dirname -- "$0")/common.sh"

cp s station
mkdir d
ln -s station soft
ln station hard
ln -s nothing dangling
ln -s . here
printf 'old plan\n' >one
ln one other

# refused WORDS..: Usage, and no name has changed
refused() {
    wants 2 "$TPP" "$@"
    [ "$(head -n 1 out)" = Usage ] || broken "no usage text: $*"
    is station s "$*"
    is one old.plan "$*"
    [ ! -e nothing ] && [ ! -e d/x ] || broken "a file was made: $*"
    no_file_beside "$*"
}

for name in station ./station d/../station "$PWD/station" soft here/station hard ././soft; do
    refused solve station --plan "$name"
    refused solve station --proof "$name"
    refused solve "$name" --plan x --proof station
    refused solve "$name" --splits 0 --plan hard
done
for name in ./nothing dangling here/nothing "$PWD/nothing" d/../nothing; do
    refused solve station --plan nothing --proof "$name"
    refused solve station --plan "$name" --proof nothing
done
for name in other ./other ./one here/one; do
    refused solve station --plan one --proof "$name"
    refused solve station --plan "$name" --proof one
done

# where the report goes is no FILE, unless it is no regular file
printf 'kept\n' >report
"$TPP" solve station --plan report >>report && broken 'the report is the plan'
"$TPP" solve station --proof /dev/stdout >>report && broken 'the report is the proof'
[ "$(grep -c Usage report)" = 2 ] && [ "$(head -n 1 report)" = kept ] || broken 'the report is not kept'
tried=$((tried + 2))
"$TPP" solve /dev/stdin --plan station <station >out && broken 'standard input is the plan'
is station s 'standard input'
tried=$((tried + 1))

# names of different files, and inputs that are one file
wants 0 "$TPP" solve soft --plan d/x --proof x
is d/x s.plan
is x s.proof
is out s.report
wants 5 "$TPP" check station ./station
wants 4 "$TPP" cost soft hard

# a link is followed, and stays one; the other name of a file keeps its text; permissions stay
mkdir e
printf 'old plan\n' >e/far
ln -s e/far near
chmod 640 e/far
ln e/far e/twin
wants 0 "$TPP" solve station --plan near --proof dangling
[ -L near ] && [ -L dangling ] || broken 'a link was replaced'
is e/far s.plan
is e/twin old.plan
is nothing s.proof
[ "$(stat -c %a e/far)" = 640 ] || broken 'the permissions have changed'
no_file_beside 'links'

# a FILE that can't be written: 7 before the work, with nothing put, and the other FILE is as it was
ln -s loop loop
long=$(printf '%0300d' 0)
for name in none/x d e/far/x d/ none/ "$long" loop .; do
    wants 7 "$TPP" solve station --plan "$name" --proof one
    [ ! -s out ] || broken "output: $name"
    is one old.plan "$name"
    wants 7 "$TPP" solve station --plan one --proof "$name"
    is one old.plan "$name"
    wants 7 "$TPP" solve missing --plan "$name"
done
no_file_beside 'names that can not be written'
done_with names
