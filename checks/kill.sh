#!/bin/sh
# Kills the built program and starts it again, 40 times or more, or as often as is said: kill.sh --kills 400. With
# kill.sh --signer [--kills 200], outside the gate, signer/krill-signer keeps the keys beside it. It is built where it is
# missing; skipped where there is no rt for that, or no Python. KRILLC=PROGRAM takes another one, SEED=N other moments.
set -eu
top=$(cd "$(dirname "$0")/.." && pwd)
kills=40
signer=
while [ $# -gt 0 ]; do
    case $#:$1 in
    *:--signer) signer=$top/signer/krill-signer ;;
    [2-9]:--kills) kills=$2; shift ;;
    *) echo "usage: checks/kill.sh [--signer] [--kills N]" >&2; exit 2 ;;
    esac
    shift
done
command -v python3 >/dev/null || { echo "checks/kill: no python3, skipped"; exit 0; }
krillc=${KRILLC:-$(sh "$top/checks/built" krillc --version)}
[ -n "$krillc" ] || { echo "checks/kill: krillc isn't built, skipped"; exit 0; }
krillc=$(realpath "$krillc")
scratch=$(mktemp -d)
trap 'rm -rf "$scratch"' EXIT
cd "$scratch"
python3 "$top/checks/kill.py" "$krillc" "$kills" ${signer:+"$signer"}
