#!/bin/sh
# What test_press and test_run are to print of editions and their files is what a model of the rules makes of them. Nothing is
# built for it. Skipped where python3 is missing.
set -eu
top=$(cd "$(dirname "$0")/.." && pwd)
command -v python3 >/dev/null || { echo "checks/press_cases: python3 is missing, skipped"; exit 0; }
python3 -B "$top/checks/press_cases.py" "$top"
