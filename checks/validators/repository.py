"""What krillc exports: the RRDP files, the trust anchor's certificate and its locator."""
import base64, hashlib, os, re, xml.etree.ElementTree as xml
from dataclasses import dataclass

HOST = "rpki.example"
RSYNC, RRDP = f"rsync://{HOST}/repo/", f"https://{HOST}/rrdp/"
NAMESPACE = "{http://www.ripe.net/rpki/rrdp}"
SPOILED_SESSION = "00000000-0000-4000-8000-000000000000"


class Wrong(Exception):
    """What is wrong with the exported files."""


@dataclass
class Exported:
    """One exported edition: session and serial, its objects by URI, the locator, and how many deltas are named."""

    session: str
    serial: int
    objects: dict
    locator: bytes
    deltas: int

    @property
    def anchor(self):
        return self.objects[RSYNC + "ta.cer"]

    def of_kind(self, kind):
        """The objects of a kind (`cer`, `crl`, `mft` or `roa`), by URI."""
        return {uri: content for uri, content in self.objects.items() if uri.endswith(f".{kind}")}


def read(folder, path):
    try:
        with open(os.path.join(folder, path), "rb") as file:
            return file.read()
    except OSError as error:
        raise Wrong(f"krillc published and {path} can't be read: {error.strerror}") from None


def named_file(folder, element):
    """The file that an element of the notification names, which has the hash that stands there."""
    uri = element.get("uri")
    if not uri.startswith(RRDP):
        raise Wrong(f"{uri} isn't below {RRDP}")
    content = read(folder, uri[len(RRDP):])
    if hashlib.sha256(content).hexdigest() != element.get("hash").lower():
        raise Wrong(f"{uri} has another hash than the notification says")
    return content


def read_exported(folder):
    """The exported edition, by Python's XML reader."""
    notification = xml.fromstring(read(folder, "notification.xml"))
    named = {part.tag.removeprefix(NAMESPACE): named_file(folder, part) for part in notification}
    snapshot = xml.fromstring(named["snapshot"])
    if any(snapshot.get(word) != notification.get(word) for word in ("session_id", "serial")):
        raise Wrong("the snapshot is of another session or serial than the notification")
    objects = {part.get("uri"): base64.b64decode(part.text, validate=True) for part in snapshot}
    deltas = len(notification.findall(f"{NAMESPACE}delta"))
    session, serial = notification.get("session_id"), int(notification.get("serial"))
    exported = Exported(session, serial, objects, read(folder, "ta.tal"), deltas)
    check_anchor(folder, exported)
    return exported


def check_anchor(folder, exported):
    """The anchor's certificate is the one that stands at its URI, and the locator names where both stand."""
    if read(folder, "ta.cer") != exported.objects.get(RSYNC + "ta.cer"):
        raise Wrong("ta.cer isn't the certificate that stands at its URI")
    uris = re.match(r"(.*)\n(.*)\n\n", exported.locator.decode())
    if not uris or uris.groups() != (RSYNC + "ta.cer", RRDP + "ta.cer"):
        raise Wrong(f"ta.tal names other URIs than {RSYNC}ta.cer and {RRDP}ta.cer")


def write(path, content):
    os.makedirs(os.path.dirname(path), exist_ok=True)
    with open(path, "wb") as file:
        file.write(content)


def write_tree(folder, objects):
    """Writes objects as a tree of rsync has them: HOST and their path."""
    for uri, content in objects.items():
        write(os.path.join(folder, uri.removeprefix("rsync://")), content)


def document(kind, serial, lines):
    head = f'<{kind} xmlns="{NAMESPACE[1:-1]}" version="1" session_id="{SPOILED_SESSION}" serial="{serial}">'
    return "\n".join([head, *lines, f"</{kind}>", ""]).encode()


def spoiled(exported, folder):
    """The edition with a bit changed in the signature of a ROA, and a folder that a web server can hand out with it."""
    uri, content = min(exported.of_kind("roa").items())
    objects = {**exported.objects, uri: content[:-1] + bytes([content[-1] ^ 1])}
    published = [f'<publish uri="{at}">{base64.b64encode(objects[at]).decode()}</publish>' for at in sorted(objects)]
    snapshot = document("snapshot", exported.serial, published)
    named = f'<snapshot uri="{RRDP}snapshot.xml" hash="{hashlib.sha256(snapshot).hexdigest()}"/>'
    write(os.path.join(folder, "snapshot.xml"), snapshot)
    write(os.path.join(folder, "ta.cer"), exported.anchor)
    write(os.path.join(folder, "notification.xml"), document("notification", exported.serial, [named]))
    return Exported(SPOILED_SESSION, exported.serial, objects, exported.locator, 0)
