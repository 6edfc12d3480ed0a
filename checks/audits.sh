#!/bin/sh
# Audits of the sets among the cases of crates/test_press, each of whose bytes is changed in turn, in its lowest and
# in its highest bit: each change is refused at the object that it is in, by the rules that it can break. The program is
# built where it is missing; skipped where there is no rt for that, or no python3.
set -eu
top=$(cd "$(dirname "$0")/.." && pwd)
command -v python3 >/dev/null || { echo "checks/audits: python3 is missing, skipped"; exit 0; }
program=$(sh "$top/checks/built" test_press)
[ -n "$program" ] || { echo "checks/audits: test_press isn't built, skipped"; exit 0; }
scratch=$(mktemp -d)
trap 'rm -rf "$scratch"' EXIT
sh "$top/checks/part" "$top/crates/test_press/stdin" audits >"$scratch/cases"
python3 "$top/checks/audits.py" "$program" "$scratch/cases"
