#!/bin/sh
# The texts of RRDP that test_repository prints, parsed as XML and compared with their cases field by field;
# a locator's key is read by openssl where it is there. The gate sees that the program prints just
# crates/test_repository/stdout. Skipped where python3 is missing.
set -eu
top=$(cd "$(dirname "$0")/.." && pwd)
command -v python3 >/dev/null || { echo "checks/rrdp: python3 is missing, skipped"; exit 0; }
scratch=$(mktemp -d)
trap 'rm -rf "$scratch"' EXIT
for file in stdin stdout; do
    sh "$top/checks/part" "$top/crates/test_repository/$file" rrdp >"$scratch/$file"
done
python3 - "$scratch" <<'END'
import base64, shutil, subprocess, sys
import xml.etree.ElementTree as xml

folder = sys.argv[1]
SPACE = "{http://www.ripe.net/rpki/rrdp}"


def parts(text):
    return [] if text == "-" else text.split(" ")


def publish(part):
    """What a line of a case says, as an element says it."""
    if part.startswith("-"):
        uri, digest = part[1:].split("=")
        return "withdraw", {"uri": uri, "hash": digest}, None
    uri, content, *digest = part.lstrip("+").split("=")
    return "publish", {"uri": uri, **({"hash": digest[0]} if digest else {})}, bytes.fromhex(content)


def file_line(tag, part):
    *serial, uri, digest = part.split("=")
    return tag, {**({"serial": serial[0]} if serial else {}), "uri": uri, "hash": digest}, None


def seen(element):
    tag = element.tag.removeprefix(SPACE)
    content = base64.b64decode(element.text or "", validate=True) if tag == "publish" else None
    return tag, element.attrib, content


def wanted(call, rest):
    if call == "notification":
        return [file_line("delta" if i else "snapshot", part) for i, part in enumerate(rest.split(" "))]
    return [publish(part) for part in parts(rest)]


def check_file(call, arguments, text):
    session, serial, rest = arguments
    root = xml.fromstring(text)
    assert root.tag == SPACE + call, root.tag
    assert root.attrib == {"version": "1", "session_id": session, "serial": serial}, root.attrib
    assert [seen(element) for element in root] == wanted(call, rest)
    uris = [element.attrib["uri"].encode() for element in root]
    assert call == "notification" or (uris == sorted(uris) and len(uris) == len(set(uris)))
    serials = [int(element.attrib["serial"]) for element in root if "serial" in element.attrib]
    assert serials == sorted(serials, reverse=True), serials


def check_locator(arguments, text):
    key, *uris = arguments
    *lines, empty, spelled, end = text.split("\n")
    assert lines == uris and empty == "" and end == "", lines
    if shutil.which("openssl"):
        info = base64.b64decode(spelled, validate=True)
        shown = subprocess.run(["openssl", "rsa", "-pubin", "-inform", "DER", "-RSAPublicKey_out", "-outform", "DER"],
                               input=info, capture_output=True)
        assert shown.stdout.hex() == key, shown.stderr


cases = open(folder + "/stdin", encoding="utf-8").read().splitlines()
answers = open(folder + "/stdout", encoding="utf-8").read().splitlines()
assert len(cases) == len(answers)
files = 0
for case, answer in zip(cases, answers):
    name, call, *arguments = case.split("\t")
    text = answer.removeprefix(name + "\t").replace("\u240a", "\n")
    if call in ("snapshot", "delta", "notification"):
        check_file(call, arguments, text)
    elif call == "locator":
        check_locator(arguments, text)
    else:
        continue
    files += 1
assert files, "no text"
print(f"checks/rrdp: ok, {files} texts")
END
