#!/bin/sh
# Runs the planner with the words given. It is proved and built first where it isn't there yet or a source is newer.
case $0 in */*) self=$0 ;; *) self=./$0 ;; esac
while [ -L "$self" ]; do
    link=$(readlink "$self")
    case $link in /*) self=$link ;; *) self=${self%/*}/$link ;; esac
done
top=${self%/*}

if ! "$top/build" >&2; then
    echo 'tpp: the program could not be built. Mend what is said above, and run ./build' >&2
    exit 1
fi
exec "$top/crates/tpp/out/tpp" "$@"
