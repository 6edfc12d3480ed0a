#!/bin/sh
# Want of memory is answered only where memory was wanting: checks/memory.py reads the sources for that, and shows first
# that it finds what it has to. Skipped where python3 is missing.
set -eu
top=$(cd "$(dirname "$0")/.." && pwd)
command -v python3 >/dev/null || { echo "checks/memory: python3 is missing, skipped"; exit 0; }
python3 "$top/checks/memory.py" --selftest
exec python3 "$top/checks/memory.py"
