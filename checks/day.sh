#!/bin/sh
# A day in a registry, from the package alone to a router (checks/day). Outside the gate, since it takes minutes, root and
# packages of Debian: day.sh --play, or 'make day', plays it. KRILLC=PROGRAM takes another program than the built one.
set -eu
top=$(cd "$(dirname "$0")/.." && pwd)
[ "${1-}" = --play ] || { echo "checks/day: outside the gate, skipped; 'make day' plays it"; exit 0; }
missing=
for it in nginx-light:nginx rsync:rsync rpki-client:rpki-client fort-validator:fort octorpki:octorpki stayrtr:stayrtr bird2:bird \
    debhelper:dh iproute2:ip util-linux:unshare openssl:openssl gcc:cc procps:pgrep dpkg:dpkg systemd:systemd-sysusers; do
    PATH=$PATH:/usr/sbin command -v "${it#*:}" >/dev/null || missing="$missing ${it%:*}"
done
/usr/bin/python3 -c 'import cryptography' 2>/dev/null || missing="$missing python3-cryptography"
[ -z "$missing" ] || { echo "checks/day: missing packages:$missing" >&2; exit 3; }
[ "$(id -u)" = 0 ] || { echo "checks/day: it has to be run as root, which makes the namespaces" >&2; exit 3; }
package=$("$top/service/deb")
PATH=$PATH:/usr/sbin exec /usr/bin/python3 "$top/checks/day" "$package"
