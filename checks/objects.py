"""Reads the written objects and bodies of the cases with openssl, and compares what it tells with the cases."""

import datetime
import hashlib
import ipaddress
import re
import subprocess
import sys
import tempfile

CASES = sys.argv[1]

# The head of the extension subjectKeyIdentifier.
SUBJECT_KEY = "0603551d0e04160414"


def openssl(*words, given):
    """What openssl prints for bytes of DER, or nothing where it refuses them."""
    ran = subprocess.run(["openssl", *words, "-inform", "DER"], input=given, capture_output=True)
    return ran.stdout.decode("latin-1") if ran.returncode == 0 else None


def cases(part):
    """Name, call, arguments and answer of each case of a part."""
    with open(f"{CASES}/{part}.stdin") as given, open(f"{CASES}/{part}.stdout") as answers:
        for case, answer in zip(given, answers, strict=True):
            name, call, *arguments = case.rstrip("\n").split("\t")
            told, answer = answer.rstrip("\n").split("\t", 1)
            assert told == name, name
            yield name, call, arguments, answer


def printed(seconds):
    """A time as openssl prints it."""
    time = datetime.datetime(1970, 1, 1) + datetime.timedelta(seconds=int(seconds))
    return f"{time:%b} {time.day:2} {time:%H:%M:%S} {time.year} GMT"


def hex_of(text):
    """The bytes of pairs of digits with colons between them."""
    return "".join(re.findall(r"\b[0-9a-fA-F]{2}\b", text)).lower()


def dump(text):
    """The bytes of openssl's dump, in hexadecimal."""
    lines = re.findall(r"^ *[0-9a-f]{4} - ((?:[0-9a-f]{2}[ -]?){1,15})", text, re.MULTILINE)
    return "".join(re.findall(r"[0-9a-f]{2}", " ".join(lines)))


def wants(what, told, wanted):
    if told != wanted:
        sys.exit(f"checks/objects: {what}: openssl tells {told}, and the case says {wanted}")


def check_crl(name, fields, bytes_of_crl, signature):
    issuer, this_update, next_update, number, entries = fields
    text = openssl("crl", "-noout", "-text", given=bytes_of_crl)
    if text is None:
        sys.exit(f"checks/objects: {name}: openssl doesn't read it")
    wants(name, re.search(r"Version (\S+)", text)[1], "2")
    wants(name, re.findall(r"Signature Algorithm: (.*)", text), ["sha256WithRSAEncryption"] * 2)
    wants(name, re.search(r"Issuer: CN ?= ?(.*)", text)[1], issuer)
    wants(name, re.search(r"Last Update: (.*)", text)[1], printed(this_update))
    wants(name, re.search(r"Next Update: (.*)", text)[1], printed(next_update))
    wants(name, hex_of(re.search(r"Authority Key Identifier: *\n(.*)", text)[1]), issuer)
    wants(name, re.search(r"CRL Number: *\n *(.*)", text)[1], number)
    wants(name, len(re.findall("X509v3", text)), 2)
    told = re.findall(r"Serial Number: ([0-9A-F]+)\n *Revocation Date: (.*)", text)
    wanted = [entry.split(":") for entry in entries.split(",") if entry]
    wants(name, [(int(s, 16), t) for s, t in told], [(int(s), printed(t)) for s, t in wanted])
    wants(name, hex_of(text[text.index("Signature Value"):].split("\n", 1)[1]), signature)


def check_object(name, fields, bytes_of_object):
    """No where the certificate is none that openssl reads, and so the object neither."""
    kind, content, certificate, signer, moment, signature = fields
    text = openssl("cms", "-cmsout", "-print", "-noout", given=bytes_of_object)
    if text is None:
        wants(name, openssl("x509", "-noout", given=bytes.fromhex(certificate)), None)
        return False
    oid = {"Roa": "1.2.840.113549.1.9.16.1.24", "Manifest": "1.2.840.113549.1.9.16.1.26"}[kind]
    head, signers = text.split("signerInfos:")
    wants(name, re.search(r"eContentType: .*\((.*)\)", head)[1], oid)
    attributes = signers[signers.index("signedAttrs:"):signers.index("signatureAlgorithm:")]
    wants(name, re.findall(r"object: (\S+)", attributes), ["contentType", "signingTime", "messageDigest"])
    wants(name, re.search(r"OBJECT:.*\((.*)\)", attributes)[1], oid)
    wants(name, re.search(r"(?:UTCTIME|GENERALIZEDTIME):(.*)", attributes)[1], printed(moment))
    hashed = hashlib.sha256(bytes.fromhex(content)).hexdigest()
    wants(name, dump(attributes[attributes.index("OCTET STRING"):]), hashed)
    wants(name, dump(signers[signers.index("subjectKeyIdentifier"):signers.index("digestAlgorithm")]), signer)
    tail = signers[signers.index("signatureAlgorithm:"):]
    wants(name, re.search(r"algorithm: (\S+)", tail)[1], "rsaEncryption")
    wants(name, dump(tail), signature)
    if SUBJECT_KEY + signer not in certificate:
        return True
    # The certificate's key is the signer: openssl hashes the content itself, and hands it and the
    # certificate out. No signature is RSA.
    with tempfile.NamedTemporaryFile() as chain:
        told = subprocess.run(
            ["openssl", "cms", "-verify", "-noverify", "-no_attr_verify", "-binary", "-inform", "DER",
             "-certsout", chain.name],
            input=bytes_of_object, capture_output=True)
        wants(name, (told.returncode, told.stdout.hex()), (0, content))
        der = subprocess.run(["openssl", "x509", "-in", chain.name, "-outform", "DER"], capture_output=True)
        wants(name, der.stdout.hex(), certificate)
    return True


def elements(name, body):
    """The elements that openssl finds in a body, in their order: depth, kind and value."""
    text = openssl("asn1parse", given=body)
    if text is None:
        sys.exit(f"checks/objects: {name}: openssl doesn't read it")
    found = []
    for line in text.splitlines():
        at, depth, head, size, kind, value = re.match(
            r" *(\d+):d=(\d+) +hl=(\d+) l= *(\d+) (?:cons|prim): ([A-Z0-9 ]*[A-Z0-9]) *(?:\[HEX DUMP\])?:?(.*)", line
        ).groups()
        if kind == "BIT STRING":
            start = int(at) + int(head)
            value = body[start:start + int(size)].hex()
        if kind == "INTEGER":
            value = int(value, 16)
        found.append((int(depth), kind, value))
    return found


def check_roa(name, fields, body):
    asn, origins = fields
    wanted = [(0, "SEQUENCE", ""), (1, "INTEGER", int(asn)), (1, "SEQUENCE", "")]
    family = None
    for origin in origins.split(","):
        prefix, _, most = origin.split(" => ")[0].partition("-")
        network = ipaddress.ip_network(prefix)
        if network.version != family:
            family = network.version
            wanted += [(2, "SEQUENCE", ""), (3, "OCTET STRING", {4: "0001", 6: "0002"}[family]), (3, "SEQUENCE", "")]
        octets = network.network_address.packed[:(network.prefixlen + 7) // 8]
        wanted += [(4, "SEQUENCE", ""), (5, "BIT STRING", bytes([-network.prefixlen % 8]).hex() + octets.hex())]
        if most and int(most) != network.prefixlen:
            wanted.append((5, "INTEGER", int(most)))
    wants(name, elements(name, body), wanted)


def check_manifest(name, fields, body):
    numbers, files = fields
    number, this_update, next_update = numbers.split(" ")
    wanted = [(0, "SEQUENCE", ""), (1, "INTEGER", int(number))]
    for seconds in (this_update, next_update):
        time = datetime.datetime(1970, 1, 1) + datetime.timedelta(seconds=int(seconds))
        wanted.append((1, "GENERALIZEDTIME", f"{time:%Y%m%d%H%M%S}Z"))
    wanted += [(1, "OBJECT", "sha256"), (1, "SEQUENCE", "")]
    for file in filter(None, files.split(",")):
        name_of_file, digest = file.split(" ")
        wanted += [(2, "SEQUENCE", ""), (3, "IA5STRING", name_of_file), (3, "BIT STRING", "00" + digest)]
    wants(name, elements(name, body), wanted)


crls = objects = bodies = 0
fields = {}
for name, call, arguments, answer in cases("crls"):
    kind = name.rsplit(": ", 1)[0]
    if call == "tbs":
        fields[kind] = arguments
    if call == "write":
        check_crl(name, fields[kind], bytes.fromhex(answer), arguments[1])
        crls += 1
for name, call, arguments, answer in cases("signed"):
    if call == "write" and answer != "no spelling":
        objects += check_object(name, arguments, bytes.fromhex(answer))
for name, call, arguments, answer in cases("bodies"):
    if call == "write roa":
        check_roa(name, arguments, bytes.fromhex(answer))
        bodies += 1
    if call == "write manifest":
        check_manifest(name, arguments, bytes.fromhex(answer))
        bodies += 1
assert crls > 20 and objects > 10 and bodies > 25, (crls, objects, bodies)
print("checks/objects: ok")
