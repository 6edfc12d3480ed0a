#!/bin/sh
# The units of service/: each is exposed by at most 2.0, as systemd-analyze counts it from the file. Skipped where there is
# no systemd-analyze that takes units so.
set -eu
top=$(cd "$(dirname "$0")/.." && pwd)
scratch=$(mktemp -d)
trap 'rm -rf "$scratch"' EXIT
systemd-analyze security --help 2>/dev/null | grep -q -- --offline || { echo "checks/service: no systemd-analyze with --offline, skipped"; exit 0; }
told= failed=0
for unit in "$top"/service/*.service; do
    name=$(basename "$unit" .service)
    # a template is looked at as its first instance
    case $name in *@) name=${name}0 ;; esac
    cp "$unit" "$scratch/$name.service"
    exposed=$(systemd-analyze security --offline=yes --no-pager --threshold=20 "$scratch/$name.service" 2>&1) || failed=1
    told="$told $name $(echo "$exposed" | sed -n 's/.*Overall exposure level for [^:]*: \([0-9.]*\).*/\1/p'),"
done
[ "$failed" = 0 ] || { echo "checks/service: a unit is exposed by more than 2.0:${told%,}"; exit 1; }
echo "checks/service: ok,${told%,}"
