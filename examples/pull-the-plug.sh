#!/usr/bin/env bash
# Kills natgw with signal 9 in the middle of a stream, opens the same directory again, and compares: every session
# whose packet was answered has to be there.
#
#   examples/pull-the-plug.sh              60,000 packets; some seconds
#   examples/pull-the-plug.sh --million    a million packets
#   examples/pull-the-plug.sh --packets N  that many (30,000 to 4,128,768)
#   examples/pull-the-plug.sh --under DIR  the files lie in a fresh directory there, which goes at the end; default: /tmp
#
# The program is crates/natgw/out/natgw, or the one that NATGW names. The last line says what was seen; the status is 0
# where nothing was missing.
#
# Signal 9 takes all that the program had in memory. It leaves what the system holds of the files in its caches, which a
# real loss of power takes as well; that natgw has synced before it answers is told in docs/crash-safety.md, and looked
# at by tests/syncs.
set -euo pipefail

here=$(cd "$(dirname "${BASH_SOURCE[0]}")" && pwd)
natgw=${NATGW:-$here/../crates/natgw/out/natgw}
packets=60000
under=${TMPDIR:-/tmp}

usage() {
  sed -n '2,/^$/{/^#/!d;s/^# \{0,1\}//;p}' "${BASH_SOURCE[0]}"
  exit "$1"
}

while [ $# -gt 0 ]; do
  case $1 in
    --million) packets=1000000 ;;
    --packets) packets=${2:?}; shift ;;
    --under) under=${2:?}; shift ;;
    --help) usage 0 ;;
    *) usage 2 >&2 ;;
  esac
  shift
done

if ! [ -x "$natgw" ]; then
  echo "there is no program $natgw: './natgw --version' at the top of the repository builds it, NATGW names another" >&2
  exit 2
fi

work=$(mktemp -d "$under/pull-the-plug.XXXXXX")
replay=
end() {
  [ -z "$replay" ] || kill -9 "$replay" 2>/dev/null || true
  rm -rf "$work"
}
trap end EXIT
mkdir "$work/state"
options=(--dir "$work/state" --inside 192.168.0.0/16 --external 203.0.113.1)

echo "a stream of a ruleset and $packets packets, each of which begins a session"
python3 "$here/many_sessions.py" make "$packets" >"$work/requests"

# An answer of 42 bytes for each packet: the plug is pulled when half of them are in the file.
half=$((packets * 21))
: >"$work/answers"
"$natgw" replay "${options[@]}" <"$work/requests" >"$work/answers" &
replay=$!
while [ "$(stat -c %s "$work/answers")" -lt "$half" ] && kill -0 "$replay" 2>/dev/null; do sleep 0.005; done
kill -9 "$replay" 2>/dev/null || true
status=0
wait "$replay" 2>/dev/null || status=$?
replay=
case $status in
  137) echo "natgw was killed with signal 9; its files: $(du -cb "$work"/state/natgw.? | tail -n 1 | cut -f 1) bytes" ;;
  0) echo "natgw was done before the plug was pulled: take more packets" >&2; exit 1 ;;
  *) echo "natgw ended by itself with status $status" >&2; exit 1 ;;
esac

"$natgw" show "${options[@]}" >"$work/sessions"
python3 "$here/many_sessions.py" check "$packets" "$work/answers" <"$work/sessions"
