#!/bin/sh
# The roster of crates is as crates.txt and the crates' READMEs say.
command -v python3 >/dev/null || { echo "roster: skipped: no python3"; exit 0; }
python3 "$(dirname "$0")/roster.py" --check && echo "roster: ok"
