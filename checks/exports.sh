#!/bin/sh
# Kills the built program within its publications, and forbids it what an export does (checks/exports). It is killed 30 times
# at random moments and 30 times behind a call of the system, or as often as the first word says: exports.sh 1000. The
# program is built where it is missing; skipped where there is no rt for that, or no Python. KRILLC=PROGRAM takes
# another one.
set -eu
top=$(cd "$(dirname "$0")/.." && pwd)
command -v python3 >/dev/null || { echo "checks/exports: no python3, skipped"; exit 0; }
krillc=${KRILLC:-$(sh "$top/checks/built" krillc --version)}
[ -n "$krillc" ] || { echo "checks/exports: krillc isn't built, skipped"; exit 0; }
scratch=$(mktemp -d)
trap 'chmod -R u+rwx "$scratch"; rm -rf "$scratch"' EXIT
# A user without rights runs the program there.
chmod 755 "$scratch"
install -m 755 "$krillc" "$scratch/krillc"
cd "$scratch"
python3 "$top/checks/exports" ./krillc "${1:-30}"
