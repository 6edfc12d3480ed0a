#!/bin/sh
# A tree of four levels whose keys are rolled over, at once and one after another, with an edition each hour for three
# days, each of them audited (crates/test_press). The program is built where it is missing; skipped where there is no rt
# for that, or no python3.
set -eu
top=$(cd "$(dirname "$0")/.." && pwd)
command -v python3 >/dev/null || { echo "checks/rollovers: python3 is missing, skipped"; exit 0; }
program=$(sh "$top/checks/built" test_press)
[ -n "$program" ] || { echo "checks/rollovers: test_press isn't built, skipped"; exit 0; }
python3 -B "$top/checks/rollovers.py" "$program"
