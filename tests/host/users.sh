#!/bin/sh
# Users: what a user without leave may not read is 6, what may not be written is 7 before the work, and nothing is changed.
. "$(dirname -- "$0")/common.sh"

if [ "$(id -u)" != 0 ]; then
    echo 'only root can take on another user: not tried'
    done_with users
    exit
fi
cp "$TPP" program && chmod 755 program
# as_nobody COMMAND..
as_nobody() {
    setpriv --reuid=65534 --regid=65534 --clear-groups "$@"
}

chmod 644 s
cp s secret
chmod 600 secret
wants 6 as_nobody ./program solve secret

# a folder without leave to write, and FILEs there
mkdir closed open
chmod 755 closed
chmod 777 open
cp old.plan closed/theirs
chmod 666 closed/theirs
wants 7 as_nobody ./program solve s --plan closed/new
wants 7 as_nobody ./program solve s --plan closed/theirs
wants 7 as_nobody ./program solve s --plan open/new --proof closed/new
[ ! -e open/new ] && [ ! -e closed/new ] || broken 'a file was made'
is closed/theirs old.plan

# a FILE without leave to write in a folder with it, and one in a folder where only the owner may replace it
cp old.plan open/theirs
chmod 644 open/theirs
wants 7 as_nobody ./program solve s --plan open/theirs
is open/theirs old.plan
mkdir sticky
chmod 1777 sticky
cp old.plan sticky/theirs
chmod 666 sticky/theirs
wants 7 as_nobody ./program solve s --plan sticky/theirs
is sticky/theirs old.plan
wants 0 as_nobody ./program solve s --plan open/new --proof sticky/new
is open/new s.plan
is sticky/new s.proof
for left in open/.tpp-* closed/.tpp-* sticky/.tpp-*; do
    [ ! -e "$left" ] || broken "$left was left"
done
done_with users
