# What the tries at the host's edge share; each sources it. TPP is the program; where it isn't set, it is built.
# A try works in a folder of its own, which has the station `s`, its plan `s.plan` and its proof `s.proof`.
top=$(CDPATH='' cd -- "$(dirname -- "$0")/../.." && pwd) || exit 1
if [ -z "${TPP:-}" ]; then
    "$top/build" >&2 || exit 1
    TPP=$top/crates/tpp/out/tpp
fi
case $TPP in /*) ;; *) TPP=$PWD/$TPP ;; esac

work=$(mktemp -d) && chmod 755 "$work" && cd "$work" || exit 1
trap 'rm -rf "$work"' EXIT
trap 'exit 1' INT TERM

bad=0
tried=0

cp "$top/examples/one_platform.json" s || exit 1
"$TPP" solve s --plan s.plan --proof s.proof >s.report || exit 1
printf 'old plan\n' >old.plan
printf 'old proof\n' >old.proof

# wide_station TRAINS BLANKS: a station of so many trains, with so many blanks before one member of each
wide_station() {
    "$TPP" make 7 "$1" | sed "s/\"shift_price\"/$(printf "%$2s" '')&/g"
}

# broken WORDS..: counts and says what broke
broken() {
    bad=$((bad + 1))
    echo "bad: $*"
}

# wants STATUS COMMAND..: runs it; its output goes to `out`, and standard error stays empty
wants() {
    want=$1
    shift
    tried=$((tried + 1))
    "$@" >out 2>err
    got=$?
    [ "$got" = "$want" ] || broken "status $got, not $want: $*"
    [ ! -s err ] || broken "standard error: $*"
}

# is FILE TEXT: the file has the text that the other one has
is() {
    cmp -s "$1" "$2" || broken "$1 isn't $2${3:+: $3}"
}

# is_old_or_whole FILE OLD WHOLE WORDS..
is_old_or_whole() {
    cmp -s "$1" "$2" || cmp -s "$1" "$3" || broken "$1 is neither $2 nor $3: $4"
}

# no_file_beside WORDS..: no file was left beside a written one
no_file_beside() {
    for left in .tpp-*; do
        [ ! -e "$left" ] || { broken "$left was left: $*"; rm -f "$left"; }
    done
}

# done_with WHAT: the last line
done_with() {
    echo "$1: tried $tried, bad $bad"
    [ "$bad" = 0 ]
}
