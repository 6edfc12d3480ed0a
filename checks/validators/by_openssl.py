"""openssl over each object of an edition: every certificate, CRL and signed object under the anchor's certificate, and
the payloads of the ROAs' contents."""
import base64, os, subprocess

from parties import Found, payload
from repository import write

ROA_FAMILIES = {b"\x00\x01": (4, 32), b"\x00\x02": (16, 128)}


def pem(content, word):
    text = base64.encodebytes(content).decode()
    return f"-----BEGIN {word}-----\n{text}-----END {word}-----\n".encode()


def openssl(*words):
    return subprocess.run(["openssl", *words], capture_output=True, stdin=subprocess.DEVNULL)


def elements(content):
    """The tags and contents of DER elements, one behind the other."""
    at = 0
    while at < len(content):
        tag, length, start = content[at], content[at + 1], at + 2
        if length >= 128:
            start += length - 128
            length = int.from_bytes(content[at + 2 : start], "big")
        yield tag, content[start : start + length]
        at = start + length


def address_text(bits, family):
    """The prefix in a BIT STRING (RFC 3779 section 2.2.3.8)."""
    size, _ = ROA_FAMILIES[family]
    length, address = 8 * (len(bits) - 1) - bits[0], bits[1:].ljust(size, b"\0")
    if size == 4:
        return ".".join(map(str, address)) + f"/{length}", length
    return ":".join(address[at : at + 2].hex() for at in range(0, 16, 2)) + f"/{length}", length


def payloads_of_roa(content):
    """The payloads of a ROA's content (RFC 9582 section 4)."""
    ((_, body),) = elements(content)
    (_, asn), (_, families) = elements(body)
    for _, block in elements(families):
        (_, family), (_, entries) = elements(block)
        for _, entry in elements(entries):
            (_, bits), *maximum = elements(entry)
            text, length = address_text(bits, family)
            limit = int.from_bytes(maximum[0][1], "big") if maximum else length
            yield payload(text, limit, int.from_bytes(asn, "big"))


def write_store(folder, exported):
    """One file with all certificates of authorities and all CRLs. The self-signed one alone ends a chain."""
    store = b"".join(pem(content, "CERTIFICATE") for content in exported.of_kind("cer").values())
    store += b"".join(pem(content, "X509 CRL") for content in exported.of_kind("crl").values())
    path = os.path.join(folder, "store.pem")
    write(path, store)
    return path


def judge(uri, ended, complaints, word=b""):
    """A complaint, in its words, where openssl ended badly or didn't say the word that tells of success."""
    if ended.returncode == 0 and word in ended.stderr:
        return True
    said = (ended.stderr + ended.stdout).decode(errors="replace").split("\n")
    complaints.append(f"{uri}: " + "; ".join(line.strip() for line in said if line.strip())[:300])
    return False


def look(exported, folder, moment=None):
    """What openssl finds in an edition, now or at a moment in seconds since 1970."""
    complaints, payloads = [], set()
    store, file, out = write_store(folder, exported), os.path.join(folder, "file"), os.path.join(folder, "out")
    strict = ["-CAfile", store, "-crl_check_all", "-x509_strict", "-policy_check"]
    if moment is not None:
        strict += ["-attime", str(moment)]
    for uri, content in exported.of_kind("cer").items():
        write(file, pem(content, "CERTIFICATE"))
        judge(uri, openssl("verify", *strict, file), complaints)
    for uri, content in exported.of_kind("crl").items():
        write(file, content)
        # Whatever it finds of a CRL's signature, its status is 0.
        words = ["crl", "-inform", "DER", "-in", file, "-CAfile", store, "-noout"]
        judge(uri, openssl(*words), complaints, b"verify OK")
    for uri, content in {**exported.of_kind("mft"), **exported.of_kind("roa")}.items():
        write(file, content)
        words = ["cms", "-verify", "-inform", "DER", "-in", file, *strict, "-purpose", "any", "-out", out]
        if judge(uri, openssl(*words), complaints) and uri.endswith(".roa"):
            with open(out, "rb") as opened:
                payloads |= {*payloads_of_roa(opened.read())}
    return Found(payloads, complaints)
