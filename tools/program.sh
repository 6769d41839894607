# What `./kh` and `./kh-scan` do once they know where the repository is: each reads this file as its own, with its words.
#
# It is given `top`, the folder of the repository; `name`, that of the script; and `made_of`, the crate whose program it runs.
crate=$top/crates/$made_of
program=$crate/out/$made_of

# Ends with a status, and says what it means; behind it come the file that has the answer, or nothing, and the words.
end() {
    status=$1
    shift
    case "$status $*" in [1-7]" "* | 0*" edit"*) help "$status" "$start" "$@" ;; esac
    exit "$status"
}

help() {
    [ ! -x "$top/tools/kh-help" ] || "$top/tools/kh-help" "$name" "$@" >&2
}

[ ! -t 0 ] || help waits "$@"

# (where the input begins in its file, if it is one, so that the help can read it again: what a refusal is about is shown)
start=
[ ! -f /dev/stdin ] || [ ! -r "/proc/$$/fdinfo/0" ] || read -r _ start 3<&0 <"/proc/$$/fdinfo/3"

if why=$("$top/tools/built" "$made_of" </dev/null); then
    "$program" "$@"
    end "$?" "" "$@"
fi
why=${why:-$top/tools/built can not be run}
if ! command -v rt >/dev/null; then
    echo "$name: $why, and there is no rt, the Rattle toolchain, on the path: without it nothing can be proved, built or answered" >&2
    exit 70
fi

# Whether another process holds the lock of `build`.
is_being_built() {
    command -v flock >/dev/null || return 1
    flock -n "$top/build" true
    [ "$?" -eq 1 ]
}

if is_being_built; then
    echo "$name: $why; $top/build is at work, and until it has ended an unproved answer takes about a minute" >&2
else
    echo "$name: $why, so an unproved answer follows in about a minute; $top/build $name proves and builds it once" >&2
fi
folder=$(mktemp -d) || exit 70
trap 'rm -rf -- "$folder"' EXIT
trap 'exit 70' HUP INT TERM
(cd -- "$crate" && rt try --seconds 600 -- "$@") >"$folder/answer" 2>"$folder/errors"
last=$(tail -n 1 -- "$folder/errors")
case $last in
"run=ended status="*)
    cat -- "$folder/answer" || exit 4
    last=${last#run=ended status=}
    end "${last%% *}" "$folder/answer" "$@"
    ;;
esac
cat -- "$folder/errors" >&2
echo "$name: the interpreter gave no answer" >&2
exit 70
