#!/bin/sh
# The CRLs, signed objects and bodies that crates/test_formats writes, as openssl reads them: each field is compared with the case's. Skipped where openssl or python3 is missing.
set -eu
top=$(cd "$(dirname "$0")/.." && pwd)
for tool in openssl python3; do
    command -v "$tool" >/dev/null || { echo "checks/objects: $tool is missing, skipped"; exit 0; }
done
scratch=$(mktemp -d)
trap 'rm -rf "$scratch"' EXIT
for part in crls signed bodies; do
    for file in stdin stdout; do
        sh "$top/checks/part" "$top/crates/test_formats/$file" "$part" >"$scratch/$part.$file"
    done
done
python3 "$top/checks/objects.py" "$scratch"
