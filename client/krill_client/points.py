"""The publication points of the edition that was exported last: each one's manifest, with its number and its times."""
import base64
import calendar
import os
import time
import xml.etree.ElementTree as xml
from dataclasses import dataclass

RRDP = "{http://www.ripe.net/rpki/rrdp}"
# The tags that are read (X.690).
INTEGER, GENERALIZED_TIME = 0x02, 0x18


@dataclass
class Point:
    """A manifest (RFC 9286 section 4.2): its URI and number, and thisUpdate and nextUpdate in seconds since 1970."""

    uri: str
    number: int
    begins: int
    ends: int


@dataclass
class Exported:
    """The edition that a notification names, serial 0 where there is none, and its points, where its files stand."""

    session: str = ""
    serial: int = 0
    points: tuple = ()
    # The trust anchor's, which is new in each edition.
    anchors: Point | None = None


def exported(repo):
    """What lies in a folder of exported files."""
    found = Exported()
    try:
        told = xml.parse(os.path.join(repo, "notification.xml")).getroot()
        found.session, found.serial = told.get("session_id"), int(told.get("serial"))
        snapshot = xml.parse(os.path.join(repo, found.session, str(found.serial), "snapshot.xml")).getroot()
        with open(os.path.join(repo, "ta.cer"), "rb") as file:
            anchor = file.read()
    except (OSError, xml.ParseError):
        return found
    found.points = tuple(point_of(uri, base64.b64decode(text)) for uri, text in published(snapshot) if uri.endswith(".mft"))
    # the anchor's certificate names its manifest's URI
    found.anchors = next((it for it in found.points if it.uri.encode() in anchor), None)
    return found


def published(snapshot):
    return ((part.get("uri"), part.text) for part in snapshot.iter(f"{RRDP}publish"))


def point_of(uri, signed):
    """What a manifest tells, DER."""
    # ContentInfo, [0], SignedData, encapContentInfo, [0], OCTET STRING, Manifest
    manifest = [*parts(inner(signed, 0, 1, 0, 2, 1, 0, 0))]
    number = next(content for tag, content in manifest if tag == INTEGER)
    begins, ends = [seconds_of(content.decode()) for tag, content in manifest if tag == GENERALIZED_TIME]
    return Point(uri, int.from_bytes(number, "big"), begins, ends)


def parts(data):
    """The tags and contents of the DER values that stand one after another (X.690)."""
    at = 0
    while at < len(data):
        tag, length, at = data[at], data[at + 1], at + 2
        if length & 0x80:
            size = length & 0x7F
            length, at = int.from_bytes(data[at:at + size], "big"), at + size
        yield tag, data[at:at + length]
        at += length


def inner(data, *path):
    """The content of the value that the path of positions leads to."""
    for position in path:
        data = list(parts(data))[position][1]
    return data


def seconds_of(text):
    return calendar.timegm(time.strptime(text, "%Y%m%d%H%M%SZ"))
