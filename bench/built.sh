# What the scripts that run the built program share. To be sourced:
#
#   . built.sh "$0" "$@"
#
# reads `[--program FILE]` from the words behind the script's name, and sets `program` to that file, or else to the program of this
# repository, which is built first where that is needed. `fail` says what failed, and ends the script with status 2.
set -u
export LC_ALL=C

fail() { printf '%s: %s\n' "$script" "$*" >&2; exit 2; }

# Prints how many instructions a command runs.
counted() { # WORD..
	valgrind --tool=callgrind --callgrind-out-file=/dev/null "$@" 2>&1 >/dev/null </dev/null |
		sed -n 's/^.*Collected *: *\([0-9]*\).*$/\1/p'
}

script=$(basename "$(dirname "$(readlink -f "$1")")")/$(basename "$1")
shift
top=$(cd "$(dirname "$(readlink -f "${BASH_SOURCE[0]}")")/.." && pwd) || exit 2
program=''
while (($#)); do
	case $1 in
	--program) program=$(readlink -f "${2:?--program FILE}") && shift ;;
	*) fail "unknown word $1; usage: $script [--program FILE]" ;;
	esac
	shift
done
if [[ -z $program ]]; then
	"$top/gst_run" "" </dev/null >/dev/null
	(($? < 125)) || fail "the program is not built"
	program=$(readlink -f "$top/out/gst_run")
fi
[[ -x $program ]] || fail "no program $program"
