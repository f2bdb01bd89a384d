# What examples/run and examples/test have in common: they take PASSPLAN and count what passes. Once
# this is read, the current folder is examples; program is PASSPLAN's path, and work is a folder that
# goes when the script ends.
set -u
unset CDPATH

case $#,${1-} in
    1,-* | 1,) set -- ;;
esac
if [ $# -ne 1 ]; then
    echo "usage: examples/$(basename "$0") PASSPLAN" >&2
    exit 2
fi
if [ ! -f "$1" ] || [ ! -x "$1" ]; then
    echo "examples/$(basename "$0"): no program at $1" >&2
    exit 2
fi
program=$(cd "$(dirname "$1")" && pwd)/$(basename "$1")
cd "$(dirname "$0")" || exit 2

work=$(mktemp -d) || exit 2
trap 'rm -rf "$work"' EXIT
trap 'exit 2' HUP INT TERM

passed=0
failed=0

# check NAME COMMAND..: runs the command and counts it.
check() {
    label=$1
    shift
    if "$@"; then
        echo "ok $label"
        passed=$((passed + 1))
    else
        echo "FAILED $label"
        failed=$((failed + 1))
    fi
}

# The last line, and whether all passed.
finish() {
    echo "$passed passed, $failed failed"
    [ "$failed" -eq 0 ]
}
