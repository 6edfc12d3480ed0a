#!/bin/sh
# The certificates among the cases of crates/test_formats, read by openssl and compared field by field. The
# gate sees that the program writes and reads just these. Skipped where openssl or python3 is missing.
set -eu
top=$(cd "$(dirname "$0")/.." && pwd)
for tool in openssl python3; do
    command -v "$tool" >/dev/null || { echo "checks/certificates: $tool is missing, skipped"; exit 0; }
done
scratch=$(mktemp -d)
trap 'rm -rf "$scratch"' EXIT
for file in stdin stdout; do
    sh "$top/checks/part" "$top/crates/test_formats/$file" certificates >"$scratch/$file"
done
python3 - "$scratch" <<'END'
import datetime, hashlib, ipaddress, subprocess, sys

folder = sys.argv[1]


def lines(name):
    with open(f"{folder}/{name}", encoding="utf-8") as file:
        return [line.rstrip("\n").split("\t") for line in file]


def pairs(digits):
    return ":".join(digits[i : i + 2] for i in range(0, len(digits), 2))


def date(seconds):
    moment = datetime.datetime(1970, 1, 1) + datetime.timedelta(seconds=int(seconds))
    return f"{moment:%b} {moment.day:2} {moment:%H:%M:%S} {moment.year} GMT"


def blocks(text):
    """A printed set as openssl's list: numbers without AS, addresses as Python prints them."""
    return [block.replace("AS", "") for block in text.split(", ")] if text else []


def address(word):
    """An address, a prefix or two addresses, as Python prints them."""
    try:
        if "/" in word:
            return str(ipaddress.ip_network(word))
        return "-".join(str(ipaddress.ip_address(end)) for end in word.split("-"))
    except ValueError:
        return word


def resources(held):
    if held == "inherit":
        return ["sbgp-ipAddrBlock: critical", "IPv4: inherit", "IPv6: inherit",
                "sbgp-autonomousSysNum: critical", "Autonomous System Numbers:", "inherit"]
    asn, v4, v6 = held.split(";")
    text = []
    if v4 or v6:
        text.append("sbgp-ipAddrBlock: critical")
    for family, blocks_of in (("IPv4:", v4), ("IPv6:", v6)):
        if blocks_of:
            text += [family] + [address(block) for block in blocks(blocks_of)]
    if asn:
        text += ["sbgp-autonomousSysNum: critical", "Autonomous System Numbers:"] + blocks(asn)
    return text


def extensions(issuer, subject, kind, held, uris):
    crl, issuer_uri, folder, manifest, notify, signed = uris
    entity, issued = kind == "EndEntity", kind != "Anchor"
    text = [] if entity else ["X509v3 Basic Constraints: critical", "CA:TRUE"]
    text += ["X509v3 Subject Key Identifier:", pairs(subject.upper())]
    if issued:
        text += ["X509v3 Authority Key Identifier:", pairs(issuer.upper())]
    usage = "Digital Signature" if entity else "Certificate Sign, CRL Sign"
    text += ["X509v3 Key Usage: critical", usage]
    if issued:
        text += ["X509v3 CRL Distribution Points:", "Full Name:", "URI:" + crl,
                 "Authority Information Access:", "CA Issuers - URI:" + issuer_uri]
    text.append("Subject Information Access:")
    if entity:
        text.append("Signed Object - URI:" + signed)
    else:
        text += ["CA Repository - URI:" + folder, "RPKI Manifest - URI:" + manifest,
                 "RPKI Notify - URI:" + notify]
    text += ["X509v3 Certificate Policies: critical", "Policy: ipAddr-asNumber"]
    return text + resources(held)


def wanted(fields):
    serial, issuer, start, end, key, kind, held, *uris = fields
    subject = hashlib.sha1(bytes.fromhex(key)).hexdigest()
    return {
        "serial": int(serial), "issuer": f"CN={issuer}", "subject": f"CN={subject}",
        "from": date(start), "to": date(end), "key": "00" + key[18:530],
        "extensions": extensions(issuer, subject, kind, held, uris),
    }


def seen(certificate):
    """What openssl prints of a certificate."""
    run = subprocess.run(
        ["openssl", "x509", "-inform", "DER", "-noout", "-text", "-nameopt", "RFC2253"],
        input=certificate, capture_output=True, check=True)
    text = [line.strip() for line in run.stdout.decode().splitlines()]

    def behind(start):
        return next(line[len(start):].strip() for line in text if line.startswith(start))

    def between(start, end):
        first = text.index(start) + 1
        return text[first : next(i for i in range(first, len(text)) if text[i].startswith(end))]

    number = behind("Serial Number:") or between("Serial Number:", "Signature Algorithm")[0]
    digits = number.split(" ")[0]
    return {
        "serial": int(digits.replace(":", ""), 16) if ":" in digits else int(digits),
        "issuer": behind("Issuer:"), "subject": behind("Subject:"),
        "from": behind("Not Before:"), "to": behind("Not After :"),
        "key": "".join(between("Modulus:", "Exponent")).replace(":", ""),
        "extensions": [address(line) for line in between("X509v3 extensions:", "Signature Algorithm") if line],
    }


made = {name: fields for name, call, *fields in lines("stdin") if call == "tbs"}
written = dict(lines("stdout"))
failed = count = 0
for name, fields in made.items():
    whole = written.get(name.removesuffix("tbs") + "write")
    if whole is None:
        continue
    count += 1
    told, asked = seen(bytes.fromhex(whole)), wanted(fields)
    for field in asked:
        if told[field] != asked[field]:
            print(f"checks/certificates: {name}: {field}: openssl reads {told[field]}, not {asked[field]}")
            failed = 1
if not count:
    print("checks/certificates: no certificate among the cases")
    failed = 1
if not failed:
    print(f"checks/certificates: ok, {count} certificates")
sys.exit(failed)
END
