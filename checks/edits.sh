#!/bin/sh
# The edits of crates/*/must-fail, which the gate tries, and of crates/*/refused, which `make refused` tries outside it:
# each can be applied, each is named in its crate's README, and the gate's are few. Skipped where python3 is missing.
set -eu
top=$(cd "$(dirname "$0")/.." && pwd)
command -v python3 >/dev/null || { echo "checks/edits: python3 is missing, skipped"; exit 0; }
exec python3 "$top/checks/edits.py" "$top"
