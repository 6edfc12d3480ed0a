"""The bytes of editions, by docs/formats.md and docs/edition.md alone, as signers for rehearsals make them: the objects, the
press's journal and the RRDP files of a tree's editions. Nothing of it is taken from Krill's crates."""
import base64
import hashlib
import ipaddress
import json
from datetime import datetime, timezone
from editions import CERTIFICATE_LIFE, CERTIFICATE_MARGIN, POINT_LIFE, POINT_MARGIN, Tree, joined

RSYNC, HTTPS = "rsync://rpki.example/repo/", "https://rpki.example/rrdp/"
SIGNATURE_ALGORITHM = bytes.fromhex("300d06092a864886f70d01010b0500")
KEY_ALGORITHM = bytes.fromhex("300d06092a864886f70d0101010500")
SHA_256 = bytes.fromhex("0609608648016503040201")
POLICIES = bytes.fromhex("300c300a06082b06010505070e02")
ROLES = {"new": 0, "current": 1, "old": 2}


def sha256(content):
    return hashlib.sha256(content).digest()


# ---- DER

def der(tag, *contents):
    content = b"".join(contents)
    length = len(content)
    if length < 128:
        return bytes([tag, length]) + content
    size = (length.bit_length() + 7) // 8
    return bytes([tag, 0x80 | size]) + length.to_bytes(size, "big") + content


def seq(*contents):
    return der(0x30, *contents)


def integer(number):
    return der(2, number.to_bytes(number.bit_length() // 8 + 1, "big"))


def oid(digits):
    return der(6, bytes.fromhex(digits))


def bits(content, unused=0):
    return der(3, bytes([unused]), content)


def octets(*contents):
    return der(4, *contents)


def general(moment):
    return der(0x18, datetime.fromtimestamp(moment, timezone.utc).strftime("%Y%m%d%H%M%SZ").encode())


def time(moment):
    at = datetime.fromtimestamp(moment, timezone.utc)
    return der(0x17, at.strftime("%y%m%d%H%M%SZ").encode()) if at.year < 2050 else general(moment)


def name_of(identifier):
    return seq(der(0x31, seq(oid("550403"), der(0x13, identifier.hex().encode()))))


# ---- resources

def prefix_bits(address, length, width):
    size = (length + 7) // 8
    return bits((address >> (width - 8 * size) if size else 0).to_bytes(size, "big"), 8 * size - length)


def block(first, last, width):
    """A range of addresses: as a prefix where it is one."""
    shared = width - (first ^ last).bit_length()
    if first & (1 << (width - shared)) - 1 == 0 and last & (1 << (width - shared)) - 1 == (1 << (width - shared)) - 1:
        return prefix_bits(first, shared, width)

    def end(number, fill):
        length = width
        while length and (number >> (width - length)) & 1 == fill:
            length -= 1
        return prefix_bits(number >> (width - length) << (width - length), length, width)
    return seq(end(first, 0), end(last, 1))


def ip_blocks(v4, v6):
    families = [seq(octets(family), seq(*(block(*each, width) for each in held)))
                for family, held, width in ((b"\0\1", v4, 32), (b"\0\2", v6, 128)) if held]
    return seq(*families) if families else None


def as_blocks(held):
    blocks = [integer(a) if a == b else seq(integer(a), integer(b)) for a, b in held]
    return seq(der(0xa0, seq(*blocks))) if blocks else None


INHERIT = bytes.fromhex("301030060402000105003006040200020500"), bytes.fromhex("3004a0020500")


def origin_text(each):
    version, first, _, length, most, asn = each
    address = (ipaddress.IPv4Address if version == 4 else ipaddress.IPv6Address)(first)
    return f"{address.compressed}/{length}" + (f"-{most}" if most != length else "") + f" => {asn}"


# ---- signers and keys

class Rehearsal:
    def __init__(self, start):
        self.start, self.made, self.signed = bytes.fromhex(start), 0, 0

    def make(self):
        blocks = bytearray(b"".join(sha256(self.start + self.made.to_bytes(8, "big") + bytes([i])) for i in range(8)))
        blocks[0] |= 0x80
        blocks[-1] |= 1
        self.made += 1
        return bytes.fromhex("3082010a0282010100") + bytes(blocks) + bytes.fromhex("0203010001")

    def sign(self, key, content):
        self.signed += 1
        digest = sha256(content)
        return b"".join(sha256(key + digest + bytes([i])) for i in range(8))


class Key:
    """A live key, with its counters and the entries of its CRL: serial, end, and when it was revoked."""

    def __init__(self, name, signer):
        self.name, self.signer, self.bits = name, signer, signer.make()
        self.id = hashlib.sha1(self.bits).digest()
        self.next_serial, self.number, self.this_update, self.revoked, self.added = 1, 0, 0, [], []

    def serial(self):
        self.next_serial += 1
        return self.next_serial - 1

    def file(self, ending):
        return f"{self.name}/0/{self.id.hex()}.{ending}"


class Object:
    def __init__(self, content, issuer, serial, end):
        self.bytes, self.issuer, self.serial, self.end, self.hash = content, issuer, serial, end, sha256(content)


# ---- objects

def extension(digits, critical, value):
    return seq(oid(digits), der(1, b"\xff") if critical else b"", octets(value))


def access(*places):
    return seq(*(seq(oid(digits), der(0x86, uri.encode())) for digits, uri in places))


class Maker:
    """What stands where, and how its certificates name it."""

    def __init__(self, rsync=RSYNC, https=HTTPS):
        self.rsync, self.https = rsync, https

    def tbs(self, issuer, home, serial, first, last, bits_of_key, kind, access_to, ip, numbers):
        """`home` is where the issuer's certificate stands, and None of the anchor's own."""
        subject = hashlib.sha1(bits_of_key).digest()
        is_ca = kind == "CA"
        extensions = [extension("551d13", True, bytes.fromhex("30030101ff"))] if is_ca else []
        extensions.append(extension("551d0e", False, octets(subject)))
        if home is not None:
            extensions.append(extension("551d23", False, seq(der(0x80, issuer.id))))
        extensions.append(extension("551d0f", True, bytes.fromhex("03020106" if is_ca else "03020780")))
        if home is not None:
            crl = der(0x86, (self.rsync + issuer.file("crl")).encode())
            extensions.append(extension("551d1f", False, seq(seq(der(0xa0, der(0xa0, crl))))))
            extensions.append(extension("2b06010505070101", False, access(("2b06010505073002", self.rsync + home))))
        extensions.append(extension("2b0601050507010b", False, access_to))
        extensions.append(extension("551d20", True, POLICIES))
        if ip is not None:
            extensions.append(extension("2b06010505070107", True, ip))
        if numbers is not None:
            extensions.append(extension("2b06010505070108", True, numbers))
        return seq(der(0xa0, integer(2)), integer(serial), SIGNATURE_ALGORITHM, name_of(issuer.id),
                   seq(time(first), time(last)), name_of(subject), seq(KEY_ALGORITHM, bits(bits_of_key)),
                   der(0xa3, seq(*extensions)))

    def signed(self, issuer, tbs):
        return seq(tbs, SIGNATURE_ALGORITHM, bits(issuer.signer.sign(issuer.bits, tbs)))

    def authority(self, issuer, home, subject, held, moment):
        end, serial = moment + CERTIFICATE_LIFE, issuer.serial()
        places = access(("2b06010505073005", f"{self.rsync}{subject.name}/0/"),
                        ("2b0601050507300a", self.rsync + subject.file("mft")),
                        ("2b0601050507300d", self.https + "notification.xml"))
        tbs = self.tbs(issuer, home, serial, moment, end, subject.bits, "CA", places, ip_blocks(held[1], held[2]),
                       as_blocks(held[0]))
        return Object(self.signed(issuer, tbs), issuer, serial, end)

    def crl(self, key, moment):
        entries = [seq(integer(serial), time(at)) for serial, _, at in key.revoked]
        extensions = seq(extension("551d23", False, seq(der(0x80, key.id))), extension("551d14", False, integer(key.number)))
        tbs = seq(integer(1), SIGNATURE_ALGORITHM, name_of(key.id), time(moment), time(moment + POINT_LIFE),
                  seq(*entries) if entries else b"", der(0xa0, extensions))
        return Object(self.signed(key, tbs), key, 0, moment + POINT_LIFE)

    def signed_object(self, issuer, home, uri, kind, content, moment, end, serial, once, ip, numbers):
        """`once` signs the content, under a certificate of the issuer's."""
        content_type = oid("2a864886f70d0109100118" if kind == "ROA" else "2a864886f70d010910011a")
        attributes = b"".join((seq(oid("2a864886f70d010903"), der(0x31, content_type)),
                               seq(oid("2a864886f70d010905"), der(0x31, time(moment))),
                               seq(oid("2a864886f70d010904"), der(0x31, octets(sha256(content))))))
        signature = issuer.signer.sign(once, der(0x31, attributes))
        place = access(("2b0601050507300b", self.rsync + uri))
        certificate = self.signed(issuer, self.tbs(issuer, home, serial, moment, end, once, "EE", place, ip, numbers))
        info = seq(integer(3), der(0x80, hashlib.sha1(once).digest()), seq(SHA_256), der(0xa0, attributes), KEY_ALGORITHM,
                   octets(signature))
        data = seq(integer(3), der(0x31, seq(SHA_256)), seq(content_type, der(0xa0, octets(content))),
                   der(0xa0, certificate), der(0x31, info))
        return Object(seq(oid("2a864886f70d010702"), der(0xa0, data)), issuer, serial, end)


def roa_content(entries):
    """Entries are origins of one AS number."""
    families = []
    for version, family, width in ((4, b"\0\1", 32), (6, b"\0\2", 128)):
        held = [seq(prefix_bits(first, length, width), integer(most) if most != length else b"")
                for v, first, _, length, most, _ in sorted(entries) if v == version]
        families += [seq(octets(family), seq(*held))] if held else []
    return seq(integer(entries[0][5]), seq(*families))


def manifest_content(number, moment, files):
    listed = [seq(der(0x16, name.encode()), bits(content)) for name, content in sorted(files)]
    return seq(integer(number), general(moment), general(moment + POINT_LIFE), SHA_256, seq(*listed))


# ---- a press

class Press(Tree):
    """A tree whose editions are made by these signers, by the number that `add` names."""

    def __init__(self, starts, session, rsync=RSYNC, https=HTTPS):
        super().__init__()
        self.signers, self.session = [Rehearsal(start) for start in starts], session
        self.maker, self.rsync, self.https = Maker(rsync, https), rsync, https
        self.signer_of, self.kept, self.counts = {"ta": 0}, {}, {"ta": 0}
        self.set, self.history, self.deltas = {}, [], []
        self.records = [b"\0\0\1" + session + text(rsync) + text(https)]

    def take(self, line):
        super().take(line)
        words = json.loads(line)
        if words["command"] == "add":
            self.signer_of[words["ca"]] = words.get("signer", 0)
            self.counts[words["ca"]] = 0
        name = "ta" if words["command"] == "add" else words["ca"]
        self.counts[name] += 1

    def key(self, name):
        made = Key(name, self.signers[self.signer_of[name]])
        self.kept[made.id] = made
        return made.id

    def strangers(self, moment):
        """Objects that are no press's, for a test: of each URI the issuer and what makes it."""
        return {}

    def edition(self, moment, held):
        live = self.live()
        self.kept = {key: self.kept[key] for _, key in live}
        homes = {key: "ta.cer" if name == "ta" else f"{self.by[name].parent}/0/{key.hex()}.cer" for name, key in live}
        owed, maker, kept = self.owed(held), self.maker, self.kept
        wanted = {}
        for name, key in live:
            issuer = key if name == "ta" else self.by[self.by[name].parent].of_role("current")[1]
            wanted[homes[key]] = (issuer, ("certificate", key, held[name]), None if name == "ta" else homes[issuer])
        for name, each in owed:
            issuer = self.by[name].of_role("current")[1]
            wanted[f"{name}/0/{origin_text(each).encode().hex()}.roa"] = (issuer, ("roa", each), homes[issuer])
        before, signed = self.set, sum(signer.signed for signer in self.signers)
        new = {}
        for uri, what in wanted.items():
            stood = self.objects.get(uri)
            fits = stood and stood[:2] == what[:2] and stood[3] == what[2] and stood[2] > moment + CERTIFICATE_MARGIN
            new[uri] = before[uri] if fits else None
        for uri in sorted(uri for uri, stands in new.items() if stands is None):
            issuer, what, home = wanted[uri]
            by = kept[issuer]
            if what[0] == "certificate":
                new[uri] = maker.authority(by, home, kept[what[1]], what[2], moment)
            else:
                new[uri] = self.roa(by, home, uri, [what[1]], moment)
        new |= self.strangers(moment)
        objects = {uri: (wanted[uri][0], wanted[uri][1], new[uri].end, wanted[uri][2]) for uri in wanted}
        points = self.points_over(moment, live, homes, new, before)
        for key, (end, _, _) in points.items():
            for ending in ("crl", "mft"):
                objects[kept[key].file(ending)] = (key, "point", end, None)
        self.objects, self.points, self.set = objects, points, new
        self.moment, self.behind_the_cut, self.serial = moment, False, self.serial + 1
        self.signatures = sum(signer.signed for signer in self.signers) - signed
        return self.finish(owed, before)

    def roa(self, by, home, uri, entries, moment):
        v4 = joined((each[1], each[2]) for each in entries if each[0] == 4)
        v6 = joined((each[1], each[2]) for each in entries if each[0] == 6)
        return self.maker.signed_object(by, home, uri, "ROA", roa_content(entries), moment, moment + CERTIFICATE_LIFE,
                                        by.serial(), by.signer.make(), ip_blocks(v4, v6), None)

    def points_over(self, moment, live, homes, new, before):
        points, anew = {}, []
        for name, key in live:
            listed = {uri: thing.hash for uri, thing in new.items() if thing.issuer.id == key and uri != "ta.cer"}
            point = self.points.get(key)
            if name != "ta" and point and point[1:] == (listed, homes[key]) and point[0] > moment + POINT_MARGIN:
                points[key] = point
            else:
                points[key] = (moment + POINT_LIFE, listed, homes[key])
                anew.append(self.kept[key])
        for key in anew:
            self.revoke(key, new, before, moment)
            key.number += 1
        self.entries = sum(len(key.revoked) for key in anew)
        crls = {key.file("crl"): self.maker.crl(key, moment) for key in sorted(anew, key=lambda key: key.file("crl"))}
        for key in sorted(anew, key=lambda key: key.file("mft")):
            files = [(uri.rpartition("/")[2], content) for uri, content in points[key.id][1].items()]
            files.append((f"{key.id.hex()}.crl", crls[key.file("crl")].hash))
            new[key.file("mft")] = self.maker.signed_object(
                key, homes[key.id], key.file("mft"), "manifest", manifest_content(key.number, moment, files), moment,
                moment + POINT_LIFE, key.serial(), key.signer.make(), *INHERIT)
            key.this_update = moment
        new |= crls
        for key in set(points) - {key.id for key in anew}:
            new |= {self.kept[key].file(ending): before[self.kept[key].file(ending)] for ending in ("crl", "mft")}
        return points

    def revoke(self, key, new, before, moment):
        """The entries of the key's new CRL: those that go on, and what doesn't stand any more."""
        ended = [(thing.serial, thing.end, moment) for uri, thing in before.items()
                 if thing.issuer.id == key.id and thing.serial and uri != "ta.cer"
                 and (uri.endswith(".mft") or new.get(uri) is not thing)]
        lasting = [entry for entry in key.revoked if entry[1] >= key.this_update]
        key.added = sorted(entry for entry in ended if entry[1] >= key.this_update)
        key.revoked = sorted(lasting + key.added)

    def finish(self, owed, before):
        changes = [(uri, self.set.get(uri), before.get(uri)) for uri in sorted(set(self.set) | set(before))
                   if self.set.get(uri) is not before.get(uri)]
        self.changes = [(self.rsync + uri, new and new.bytes, old and old.hash) for uri, new, old in changes]
        self.records.append(self.record())
        self.deltas.append(self.delta_text())
        put = sum(1 for _, new, _ in changes if new)
        return (f"serial {self.serial} at {self.moment}: {len(self.set)} objects, {len(owed)} origins, {put} put, "
                f"{len(changes) - put} withdrawn")

    def digest(self):
        whole = hashlib.sha256()
        for uri in sorted(self.set):
            content = self.set[uri].bytes
            whole.update((self.rsync + uri).encode() + b"\0" + len(content).to_bytes(8, "big") + content)
        return whole.hexdigest()

    # ---- its journal

    def record(self):
        out = [b"\1", number8(self.serial), number8(self.moment), number4(64)]
        desks = list(self.by)
        out += [number8(self.counts.get(desks[at], 0) if at < len(desks) else 0) for at in range(64)]
        rows = [(desk, key) for desk, name in enumerate(desks)
                for key in sorted(self.by[name].keys, key=lambda key: ROLES[key[0]])]
        out.append(number4(len(rows)))
        for desk, (role, key, since, done) in rows:
            kept = self.kept[key]
            added = kept.added if kept.this_update == self.moment else []
            out += [number4(desk), number4(self.signer_of[desks[desk]]), bytes([ROLES[role]]), kept.bits,
                    number8(kept.next_serial), number8(kept.number), number8(kept.this_update), number8(since),
                    number4(done), number4(len(added))]
            out += [number8(each) for entry in added for each in entry]
        out.append(number4(len(self.changes)))
        for uri, new, _ in self.changes:
            out += [b"\1", text(uri), number4(len(new)), new] if new else [b"\2", text(uri)]
        return b"".join(out)

    def journal(self):
        return journal(self.records)

    # ---- its RRDP files

    def identifier(self):
        digits = self.session.hex()
        return "-".join((digits[:8], digits[8:12], digits[12:16], digits[16:20], digits[20:]))

    def head(self, element, serial=None):
        return (f'<{element} xmlns="http://www.ripe.net/rpki/rrdp" version="1" session_id="{self.identifier()}" '
                f'serial="{serial or self.serial}">\n')

    def snapshot_text(self):
        lines = [f'  <publish uri="{self.rsync}{uri}">{base64.b64encode(self.set[uri].bytes).decode()}</publish>\n'
                 for uri in sorted(self.set)]
        return (self.head("snapshot") + "".join(lines) + "</snapshot>\n").encode()

    def delta_text(self):
        lines = []
        for uri, new, old in self.changes:
            replaced = f' hash="{old.hex()}"' if old else ""
            lines.append(f'  <publish uri="{uri}"{replaced}>{base64.b64encode(new).decode()}</publish>\n' if new
                         else f'  <withdraw uri="{uri}"{replaced}/>\n')
        return (self.head("delta") + "".join(lines) + "</delta>\n").encode()

    def named(self):
        """The serials of the deltas that the notification names, newest first."""
        room, named = len(self.snapshot_text()), []
        for serial in range(self.serial, max(1, self.serial - 16), -1):
            room -= len(self.deltas[serial - 1])
            if room < 0:
                break
            named.append(serial)
        return named

    def notification_text(self):
        uri = lambda path: f"{self.https}{self.identifier()}/{path}"
        lines = [f'  <snapshot uri="{uri(f"{self.serial}/snapshot.xml")}" hash="{sha256(self.snapshot_text()).hex()}"/>\n']
        lines += [f'  <delta serial="{serial}" uri="{uri(f"{serial}/delta.xml")}" '
                  f'hash="{sha256(self.deltas[serial - 1]).hex()}"/>\n' for serial in self.named()]
        return (self.head("notification") + "".join(lines) + "</notification>\n").encode()


def number4(number):
    return number.to_bytes(4, "big")


def number8(number):
    return number.to_bytes(8, "big")


def text(words):
    return number4(len(words.encode())) + words.encode()


def journal(records):
    return b"KRILLJOURNAL0001" + b"".join(b"\1" + number8(len(record)) + record for record in records) + b"\0"
