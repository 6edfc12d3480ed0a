#!/bin/sh
# A sample of a year: a tree of twenty authorities with random commands and a publication each hour, each edition audited
# and each CRL compared with a list kept apart (crates/test_press). HOURS and SEED choose another sample; 8760 hours are a
# year; 240 hours take 3 seconds of a processor. The program is built where it is missing; skipped where there is no rt
# for that, or no python3.
set -eu
top=$(cd "$(dirname "$0")/.." && pwd)
command -v python3 >/dev/null || { echo "checks/year: python3 is missing, skipped"; exit 0; }
program=$(sh "$top/checks/built" test_press)
[ -n "$program" ] || { echo "checks/year: test_press isn't built, skipped"; exit 0; }
python3 -B "$top/checks/year.py" "$program" "${HOURS:-240}" "${SEED:-1}"
