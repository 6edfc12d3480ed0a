#!/bin/sh
# client/krill over the built krillc. It is built where it is missing; skipped where there is no rt for that.
# KRILLC=PROGRAM takes another program than the built one.
set -eu
top=$(cd "$(dirname "$0")/.." && pwd)
krillc=${KRILLC:-$(sh "$top/checks/built" krillc --version)}
[ -n "$krillc" ] || { echo "checks/client: krillc isn't built, skipped"; exit 0; }
python3 "$top/checks/client.py" "$top/client/krill" "$krillc"
