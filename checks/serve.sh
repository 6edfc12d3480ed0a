#!/bin/sh
# What serve/ hands out, by nginx and rsyncd, while editions are published: skipped where a program of it is missing.
# KRILLC=PROGRAM takes another program than the built one.
set -eu
top=$(cd "$(dirname "$0")/.." && pwd)
for program in nginx rsync rpki-client openssl ip unshare; do
    PATH=$PATH:/usr/sbin command -v "$program" >/dev/null || { echo "checks/serve: no $program, skipped"; exit 0; }
done
[ "$(id -u)" = 0 ] || { echo "checks/serve: it has to be run as root, skipped"; exit 0; }
python3 -c 'import cryptography' 2>/dev/null || { echo "checks/serve: no python3-cryptography, skipped"; exit 0; }
krillc=${KRILLC:-$(sh "$top/checks/built" krillc --version)}
[ -n "$krillc" ] || { echo "checks/serve: krillc isn't built, skipped"; exit 0; }
python3 "$top/checks/serve.py" "$krillc"
