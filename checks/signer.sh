#!/bin/sh
# Tries the signer beside the program: its keys, its signatures by openssl, kills, faulty lines, what is not its own;
# Krill's side of the lines over its FIFOs, by crates/test_signers; and krillc beside signers. Both sides are killed and
# started again 5 times, or as often as is said: signer.sh --kills 200. The two programs are built where they are missing;
# where there is no rt for that it says what isn't tried. KRILLC=PROGRAM takes another krillc, and SEED=N other moments.
# Skipped where the signer's Python package or openssl is missing.
set -eu
top=$(cd "$(dirname "$0")/.." && pwd)
kills=5
case $#:${1-} in
0:) ;;
2:--kills) kills=$2 ;;
*) echo "usage: checks/signer.sh [--kills N]" >&2; exit 2 ;;
esac
command -v python3 >/dev/null || { echo "checks/signer: no python3, skipped"; exit 0; }
python3 -c 'import cryptography' 2>/dev/null || { echo "checks/signer: no package cryptography, skipped"; exit 0; }
command -v openssl >/dev/null || { echo "checks/signer: no openssl, skipped"; exit 0; }
side=$(sh "$top/checks/built" test_signers)
krillc=${KRILLC:-$(sh "$top/checks/built" krillc --version)}
[ -n "$side" ] || echo "checks/signer: test_signers isn't built: Krill's side of the lines isn't tried by itself"
[ -n "$krillc" ] || echo "checks/signer: krillc isn't built: it isn't tried beside signers"
[ -z "$krillc" ] || krillc=$(realpath "$krillc")
scratch=$(mktemp -d)
trap 'rm -rf "$scratch"' EXIT
cd "$scratch"
python3 "$top/checks/signers" "$kills" "$top/signer/krill-signer" "${side:--}" "${krillc:--}"
