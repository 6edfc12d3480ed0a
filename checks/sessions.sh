#!/bin/sh
# Tries sessions over one store by the built program, and first the judge of them by itself (checks/sessions): 8 turns of
# random lines, half of which end in a kill, or as many as are said: sessions.sh --turns 40; and then the example of two
# sessions. krillc is built where it is missing; where there is no rt for that, only the judge is tried, and that is said.
# Files that change while krillc opens them are tried where there is a C compiler, cc; it is said where there is none.
# KRILLC=PROGRAM takes another one, SEED=N other lines and moments. Skipped where there is no Python.
set -eu
top=$(cd "$(dirname "$0")/.." && pwd)
usage() {
    echo "usage: checks/sessions.sh [--turns N]" >&2
    exit 2
}
turns=8
case $#:${1-} in
0:) ;;
2:--turns) turns=$2 ;;
*) usage ;;
esac
case $turns in
'' | 0* | *[!0-9]*) usage ;;
esac
command -v python3 >/dev/null || { echo "checks/sessions: no python3, skipped"; exit 0; }
krillc=${KRILLC:-$(sh "$top/checks/built" krillc --version)}
[ -z "$krillc" ] || krillc=$(realpath "$krillc")
scratch=$(mktemp -d)
running=
trap '[ -z "$running" ] || { kill "$running" 2>/dev/null || :; wait "$running" || :; }; rm -rf "$scratch"' EXIT
trap 'exit 1' HUP INT TERM
cd "$scratch"

# Runs it so that a signal ends it too.
ends_with_this() {
    "$@" &
    running=$!
    wait "$running" || { status=$?; running=; return "$status"; }
    running=
}

ends_with_this python3 "$top/checks/sessions" "$turns" "${krillc:--}"
[ -n "$krillc" ] || exit 0
ends_with_this sh "$top/examples/run-two-sessions" "$krillc" >told 2>errors || {
    echo "checks/sessions: examples/run-two-sessions:"
    cat told errors
    exit 1
}
