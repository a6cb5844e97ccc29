# Shared by the tests of the user side; each of them begins with `source "$(dirname "$0")/common.sh"`.
# A test runs in a folder of its own, which is removed at the end. GOODLOCKD_PROGRAM names another program than ./goodlockd.
set -euo pipefail
root="$(cd "$(dirname "${BASH_SOURCE[0]}")/.." && pwd)"
program="${GOODLOCKD_PROGRAM:-$root/goodlockd}"
export GOODLOCKD_PROGRAM="$program"
python=/usr/bin/python3 # has the modules of Debian's packages
[ -x "$python" ] || python=python3
unset PYTHONDONTWRITEBYTECODE
export PYTHONPYCACHEPREFIX="$root/out/pycache" # the tools start often, and leave nothing beside their sources
case "${1-}" in
    --help | -h) sed -n '2,/^[^#]/s/^# \{0,1\}//p' "$0"; exit ;;
    "") ;;
    *) echo "usage: $0 [--help]" >&2; exit 2 ;;
esac
work="$(mktemp -d)"
server=
has_failed=
trap at_end EXIT
cd "$work"

# at_end: names the command that ended the test, unless `fail` has named the fault; ends the server and removes the folder.
at_end() {
    local status=$? command="$BASH_COMMAND"
    [ "$status" = 0 ] || [ -n "$has_failed" ] || echo "$(basename "$0"): status $status of: $command" >&2
    [ -z "$server" ] || kill "$server" 2>/dev/null || true
    clean_up
    rm -rf "$work"
}

# clean_up: a test may define it anew.
clean_up() { :; }

fail() {
    echo "$(basename "$0"): $1" >&2
    has_failed=1
    exit 1
}

# skip REASON: says that a part is not tested. With CI=true, where tests/packages are installed, that is a failure.
skip() {
    [ "${CI-}" != true ] || fail "$1: tests/packages lists what the tests need"
    echo "$(basename "$0"): skipped: $1"
}

# has FILE LINE: checks that a file has a line, which a pattern of grep describes.
has() {
    grep -qx -- "$2" "$1" || fail "$1 lacks the line $2: $(cat "$1")"
}

# refuses STATUS MESSAGE COMMAND ..: checks that a command ends with this status and a line on standard error, which a pattern of grep
# describes, and that it prints nothing else and leaves no file.
refuses() {
    local wanted="$1" message="$2" status=0 before
    shift 2
    before="$(touch out err && ls)"
    "$@" >out 2>err || status=$?
    [ "$status" = "$wanted" ] && [ ! -s out ] && grep -qx -- "$message" err || fail "$*: status $status, $(cat out err)"
    [ "$before" = "$(ls)" ] || fail "$*: files are left: $(ls)"
}

# start_server COMMAND ..: starts a server by this command. Its address is then in $address, its output in the file server.
start_server() {
    : >server
    "$@" >server &
    server=$!
    until grep -q '^listening ' server; do
        kill -0 "$server" 2>/dev/null || fail "the server did not start"
        sleep 0.05
    done
    address="$(sed -n 's/^listening //p' server)"
}

stop_server() {
    kill "$server" 2>/dev/null || true
    wait "$server" 2>/dev/null || true
    server=
}

# draw TRACE REPORT: draws a report, and checks that each drawing is well-formed XML.
draw() {
    python3 "$root/tools/picture" "$1" "$2" drawn.html
    python3 - <<'PYTHON'
import re, xml.etree.ElementTree as tree
for drawing in re.findall("<svg.*?</svg>", open("drawn.html", encoding="utf-8").read(), re.S):
    tree.fromstring(drawing)
PYTHON
}
