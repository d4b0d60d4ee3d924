# shellcheck shell=bash
# What the shell scripts of this folder source, before anything else: it runs them as common.py says, answers --help with
# the comment at their head, and sets program, which it takes from the words where they begin with a path.
if [ "${SUPERVISOR-}" != "$PPID" ]; then exec python3 -B "$(dirname "${BASH_SOURCE[0]}")/common.py" "$0" "$@"; fi
case ${1-} in
    -h | --help)
        sed -n '2,/^[^#]/s/^# \{0,1\}//p' "$0"
        exit ;;
    */*)
        program=$(realpath "$1")
        shift ;;
    *)
        program=$("$(dirname "${BASH_SOURCE[0]}")/../packaging/program") || { echo "0 passed, 1 failed"; exit 1; } ;;
esac
if [ ! -x "$program" ]; then
    echo "$0: no program: $program" >&2
    exit 2
fi
