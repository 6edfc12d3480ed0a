"""Has each byte of the small sets among the cases changed in turn, and counts the refusals by rule."""

import re
import subprocess
import sys

PROGRAM, CASES = sys.argv[1:]

# The head of the extension subjectKeyIdentifier, of 20 bytes.
SUBJECT_KEY = bytes.fromhex("0603551d0e04160414")
MASKS = ("01", "80")
MOST_OBJECTS = 10


def identifying(uri, content):
    """How many bytes only Identity looks at: a manifest's signer identifier, which no signature covers."""
    if not uri.endswith(".mft"):
        return 0
    (at,) = (match.end() for match in re.finditer(re.escape(SUBJECT_KEY), content))
    signer = b"\x80\x14" + content[at : at + 20]
    assert content.count(signer) == 1, uri
    return 20


def wanted(objects):
    """What is told of each object: a listed one hasn't its hash, the others aren't signed as they stand."""
    for uri, content in objects:
        count = len(content)
        is_listed = uri.endswith((".crl", ".roa")) or uri.endswith(".cer") and not uri.endswith("/ta.cer")
        listed, other = (count, 0) if is_listed else (0, count - identifying(uri, content))
        yield f"{uri} Hash {listed}, Shape or Signature {other}, Identity {identifying(uri, content)}, otherwise 0"


def cases():
    """Lines for the program, and what it has to print."""
    base = None
    with open(CASES) as given:
        for line in given:
            call, *fields = line.rstrip("\n").split("\t")
            if call == "base":
                base = line
            elif call == "case" and base:
                objects = [(uri, bytes.fromhex(digits)) for uri, digits in
                           (part.split("=") for part in base.rstrip("\n").split("\t")[1].split(" "))]
                if len(objects) <= MOST_OBJECTS:
                    yield base, None
                    for mask in MASKS:
                        yield "\t".join(["each", mask, *fields[1:5], f"{mask}/1"]) + "\n", "\t".join([mask, *wanted(objects)])
                base = None


def main():
    lines, answers = zip(*cases())
    ran = subprocess.run([PROGRAM], input="".join(["# audits\n", *lines]), capture_output=True, text=True)
    told, expected = ran.stdout.splitlines()[1:], [answer for answer in answers if answer]
    if ran.returncode or told != expected:
        for said, want in zip(told, expected):
            for one, other in zip(said.split("\t"), want.split("\t")):
                if one != other:
                    print(f"checks/audits: {one}\n  and not: {other}")
        sys.exit(f"checks/audits: status {ran.returncode}")
    print(f"checks/audits: {len(expected)} sets, each of whose bytes is changed in turn: refused as they should be")


main()
