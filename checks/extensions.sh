#!/bin/sh
# The extensions among the cases of crates/test_formats that openssl spelled, made anew by it and
# compared. Skipped where openssl is missing. With the word `print` it prints the lines that it made.
set -eu
top=$(cd "$(dirname "$0")/.." && pwd)
command -v openssl >/dev/null || { echo "checks/extensions: openssl is missing, skipped"; exit 0; }
scratch=$(mktemp -d)
trap 'rm -rf "$scratch"' EXIT
cd "$scratch"
openssl genrsa -out key 2048 2>/dev/null

# blocks FAMILY LIST: a line of openssl's configuration for each block.
blocks() {
    echo "$2" | sed 's/, /\n/g' | sed '/^$/d' | awk -v family="$1" '{ print family "." NR "=" $0 }'
}

# extension NAME: the value, in hexadecimal, of the extension with the blocks on standard input.
extension() {
    { printf '[req]\ndistinguished_name=d\nprompt=no\n[d]\nCN=x\n[e]\n%s=critical,@v\n[v]\n' "$1"; cat; } >conf
    openssl req -new -x509 -key key -config conf -extensions e -outform DER -out cert
    at=$(openssl asn1parse -inform DER -in cert \
        | awk -v name="$1" 'index($0, name) { found = 1 } found && /OCTET STRING/ { sub(":.*", ""); print $1; exit }')
    openssl asn1parse -inform DER -in cert -strparse "$at" -noout -out value
    od -An -v -tx1 value | tr -d ' \n'
}

for file in stdin stdout; do
    sh "$top/checks/part" "$top/crates/test_formats/$file" formats >"$file"
done
failed=0
# The sets of each case, and the extension that is its answer.
awk -F '\t' '
    NR == FNR { answer[FNR] = $2; next }
    $2 == "res_ext inherit_ip" { print "v4=inherit;v6=inherit;" answer[FNR] }
    $2 == "res_ext inherit_as" { print "asn=inherit;" answer[FNR] }
    $1 !~ /^openssl/ { next }
    $2 == "res_ext write_ip" { print "v4=" $3 ";v6=" $4 ";" answer[FNR] }
    $2 == "res_ext write_as" { gsub("AS", "", $3); print "asn=" $3 ";" answer[FNR] }
' stdout stdin >lines
while IFS= read -r line; do
    case $line in
    v4=*)
        v4=${line#v4=} v4=${v4%%;*} v6=${line#*;v6=} v6=${v6%%;*}
        made="v4=$v4;v6=$v6;$({ blocks IPv4 "$v4"; blocks IPv6 "$v6"; } | extension sbgp-ipAddrBlock)"
        ;;
    *)
        asn=${line#asn=} asn=${asn%%;*}
        made="asn=$asn;$(blocks AS "$asn" | extension sbgp-autonomousSysNum)"
        ;;
    esac
    if [ "${1-}" = print ]; then
        echo "$made"
    elif [ "$made" != "$line" ]; then
        echo "checks/extensions: openssl makes $made"
        failed=1
    fi
done <lines
[ "$failed" = 0 ] && [ "${1-}" != print ] && echo "checks/extensions: ok"
exit "$failed"
