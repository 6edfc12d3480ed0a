#!/bin/sh
# Harms a store in each way that its opening has to refuse, and opens it by the built program (checks/stores). It is
# built where it is missing; skipped where there is no rt for that, or no Python. KRILLC=PROGRAM takes another one.
set -eu
top=$(cd "$(dirname "$0")/.." && pwd)
command -v python3 >/dev/null || { echo "checks/stores: no python3, skipped"; exit 0; }
krillc=${KRILLC:-$(sh "$top/checks/built" krillc --version)}
[ -n "$krillc" ] || { echo "checks/stores: krillc isn't built, skipped"; exit 0; }
krillc=$(realpath "$krillc")
scratch=$(mktemp -d)
trap 'rm -rf "$scratch"' EXIT
cd "$scratch"
python3 "$top/checks/stores" "$krillc"
