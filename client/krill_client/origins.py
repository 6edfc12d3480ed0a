"""Route origins: their texts, and lists of them as JSON and CSV.

An origin is a prefix, the greatest length at which it may be announced, and an AS number (RFC 9582)."""
import csv
import io
import ipaddress
import json
import re
from dataclasses import dataclass

MOST_AS = 2**32 - 1
CSV_HEAD = ["prefix", "length", "asn"]


class OriginFault(Exception):
    """A text that is no origin, with where it stands."""


@dataclass(frozen=True)
class Origin:
    network: ipaddress.IPv4Network | ipaddress.IPv6Network
    length: int
    asn: int

    @property
    def text(self):
        """As krillc reads it. The maximum stands only where it differs from the prefix's own length."""
        most = "" if self.length == self.network.prefixlen else f"-{self.length}"
        return f"{prefix_text(self.network)}{most} => {self.asn}"

    @property
    def order(self):
        return self.network.version, self.network, self.length, self.asn

    def as_json(self):
        return {"asn": self.asn, "max_length": self.length, "prefix": prefix_text(self.network)}

    def as_csv(self):
        return [prefix_text(self.network), self.length, f"AS{self.asn}"]


def prefix_text(network):
    """A prefix without the dotted part that some versions of Python give to IPv6, which krillc doesn't read."""
    if network.version == 4 or "." not in str(network):
        return str(network)
    return f"{network.network_address.exploded}/{network.prefixlen}"


def origin_of(prefix, length, asn):
    """The origin of its three parts, the length being None where the prefix's own is meant."""
    try:
        network = ipaddress.ip_network(str(prefix).strip(), strict=True)
    except ValueError as fault:
        raise OriginFault(str(fault)) from None
    if "/" not in str(prefix):
        raise OriginFault(f"{prefix} has no length")
    most = network.prefixlen if length is None else number_of(length, "length")
    if not network.prefixlen <= most <= network.max_prefixlen:
        raise OriginFault(f"length {most} isn't from {network.prefixlen} to {network.max_prefixlen}")
    digits = re.fullmatch(r"(?:[aA][sS])?(\d+)", str(asn).strip())
    if not digits or int(digits[1]) > MOST_AS:
        raise OriginFault(f"{asn} is no AS number")
    return Origin(network, most, int(digits[1]))


def number_of(value, what):
    if isinstance(value, bool) or not re.fullmatch(r"\d+", str(value).strip()):
        raise OriginFault(f"{value} is no {what}")
    return int(value)


def read_text(text):
    """The origin that a text of krillc's form gives, as `192.0.2.0/24-26 => 64496`."""
    parts = re.fullmatch(r"\s*([0-9a-fA-F.:]+/\d+)(?:-(\d+))?\s*=>\s*(\S+)\s*", text)
    if not parts:
        raise OriginFault(f"{text!r} isn't of the form 'PREFIX/LENGTH[-MAXIMUM] => AS'")
    return origin_of(parts[1], parts[2], parts[3])


def read_file(text, name):
    """The origins of a file: JSON where it begins with a bracket, else CSV. Each comes once, in order."""
    read = read_json if text.lstrip()[:1] in ("[", "{") else read_csv
    return sorted(set(read(text, name)), key=lambda it: it.order)


def read_json(text, name):
    """Krill's list of origins: objects with `asn`, `prefix` and, if it is given, `max_length`."""
    try:
        value = json.loads(text)
    except ValueError as fault:
        raise OriginFault(f"{name}: {fault}") from None
    if isinstance(value, dict):
        value = value.get("roas", value.get("added"))
    if not isinstance(value, list):
        raise OriginFault(f"{name}: no list of origins")
    return [placed(f"{name}: origin {number}", json_origin, item) for number, item in enumerate(value, 1)]


def json_origin(item):
    if isinstance(item, str):
        return read_text(item)
    if not isinstance(item, dict) or "prefix" not in item or "asn" not in item:
        raise OriginFault("'prefix' or 'asn' is missing")
    length = item.get("max_length", item.get("maxLength"))
    return origin_of(item["prefix"], length, item["asn"])


def read_csv(text, name):
    """Lines of prefix, length and AS number. The length may be left empty; a head is passed over."""
    found = []
    for number, row in enumerate(csv.reader(io.StringIO(text), skipinitialspace=True), 1):
        if not row or row[0].lstrip().startswith("#") or (number == 1 and "/" not in row[0]):
            continue
        found.append(placed(f"{name}:{number}", csv_origin, row))
    return found


def csv_origin(row):
    if len(row) != 3:
        raise OriginFault(f"{len(row)} fields in place of prefix, length, AS number")
    return origin_of(row[0], row[1].strip() or None, row[2])


def placed(where, read, item):
    """What `read` gives, and its fault with where the item stands."""
    try:
        return read(item)
    except OriginFault as fault:
        raise OriginFault(f"{where}: {fault}") from None


def write(origins, form):
    """The list as a text of the form `json` or `csv`."""
    if form == "json":
        return json.dumps([it.as_json() for it in origins], indent=2) + "\n"
    text = io.StringIO()
    lines = csv.writer(text, lineterminator="\n")
    lines.writerow(CSV_HEAD)
    lines.writerows(it.as_csv() for it in origins)
    return text.getvalue()
