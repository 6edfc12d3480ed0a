"""What is done to a store, and what its opening has to say of it."""
import copy, hashlib, os
from dataclasses import dataclass
from typing import Callable

from journal import CURRENT, DESKS, HEADER, NEW, OLD, Row, journal_of, records_of

PRESS, DESK = 64, "desk-{:02}"
GREATEST, FIRST_MOMENT, LAST_MOMENT = 2**63, 946684800, 253370764799
FOLDER = b"rsync://rpki.example/repo/"


@dataclass
class Harm:
    """`do` changes the files of a store, and `told` is what standard error says then, or None where it opens."""

    name: str
    do: Callable
    told: str
    status: int = 3
    words: tuple = ()


def key_id(row):
    return hashlib.sha1(row.key).hexdigest()


# ---- the bytes of the press's file

def bytes_harm(name, change, told):
    def do(files):
        files["press"] = change(files["press"])
    return Harm(f"press: {name}", do, told)


def damaged(at):
    return f"Damaged device {PRESS} at {at}"


def of_bytes(press):
    """The journal itself is cut, or a byte of it is another one."""
    content = press.bytes()
    store = len(HEADER) + 9 + len(press.store.bytes())
    last = len(content) - 1 - 9 - len(press.editions[-1].bytes())
    yield bytes_harm("another header", lambda it: b"k" + it[1:], damaged(0))
    yield bytes_harm("its last byte is gone", lambda it: it[:-1], damaged(len(content) - 1))
    yield bytes_harm("two bytes are gone", lambda it: it[:-2], damaged(last))
    yield bytes_harm("it ends within the last head", lambda it: it[:last + 5], damaged(last))
    yield bytes_harm("it ends before the last gate", lambda it: it[:last], damaged(last))
    yield bytes_harm("the last gate is open", lambda it: it[:-1] + b"\x01", damaged(len(content) - 1))
    length = len(press.editions[-1].bytes())
    # A byte is left behind the last record, its gate: where that is taken in, no gate stands behind it.
    for name, other, told in (("above all bytes", 2**64 - 1, last), ("above the bytes that are left", length + 2, last),
                              ("that takes the last gate in", length + 1, len(content))):
        yield bytes_harm(f"a length {name}", lambda it, other=other: it[:last + 1] + other.to_bytes(8, "big") + it[last + 9:],
                         damaged(told))
    yield bytes_harm("its store's record alone is left, cut", lambda it: it[:store - 1], damaged(len(HEADER)))
    yield bytes_harm("18 bytes that are none of it", lambda it: b"\x00" * 18, damaged(0))


# ---- its records

def payload_harm(name, at, change):
    """Changes one payload's bytes: `at` counts records from 0."""
    def do(files):
        payloads = records_of(files["press"])
        payloads[at] = change(payloads[at])
        files["press"] = journal_of(payloads)
    return Harm(f"record {at}: {name}", do, f"BadRecord device {PRESS} at {at}")


def press_harm(name, change, told, status=3):
    """Changes what the records tell."""
    def do(files):
        press = files["parsed"]
        change(press)
        files["press"] = press.bytes()
    return Harm(name, do, told, status)


def edition_harm(name, at, change):
    """Changes what one edition's record tells, so that it is none over those before it."""
    return press_harm(f"record {at}: {name}", lambda press: change(press.editions[at - 1]), f"BadRecord device {PRESS} at {at}")


def setting(**values):
    """Sets fields of an edition."""
    def change(edition):
        for name, value in values.items():
            setattr(edition, name, value)
    return change


def of_row(desk, **values):
    """Sets fields of the current key of a desk."""
    def change(edition):
        row = edition.row(desk)
        for name, value in values.items():
            setattr(row, name, value)
    return change


def of_shape(press):
    last = len(press.editions)
    length = len(press.editions[-1].bytes())
    cut_at, rows_at = 17, 17 + 4 + 8 * DESKS
    yield payload_harm("no version of a store", 0, lambda it: it[:2] + b"\x02" + it[3:])
    yield payload_harm("an edition in the store's place", 0, lambda it: b"\x01" + it[1:])
    yield payload_harm("a byte more", 0, lambda it: it + b"\x00")
    yield payload_harm("a byte less", 0, lambda it: it[:-1])
    yield payload_harm("no byte at all", 0, lambda it: b"")
    yield payload_harm("a base of rsync that is none", 0, lambda it: it.replace(b"rsync://", b"rsink://"))
    yield payload_harm("a base of RRDP that is none", 0, lambda it: it.replace(b"https://", b"httpx://"))
    for at in (1, last):
        yield payload_harm("a store in an edition's place", at, lambda it: b"\x00" + it[1:])
    yield payload_harm("another kind of record", last, lambda it: b"\x02" + it[1:])
    yield payload_harm("no byte at all", last, lambda it: b"")
    yield payload_harm("a byte less", last, lambda it: it[:-1])
    yield payload_harm("half of it", last, lambda it: it[:length // 2])
    yield payload_harm("a byte more", last, lambda it: it + b"\x00")
    yield payload_harm("a cut of more desks than bytes", last, lambda it: it[:cut_at] + b"\xff" * 4 + it[cut_at + 4:])
    yield payload_harm("more keys than bytes", last, lambda it: it[:rows_at] + b"\xff" * 4 + it[rows_at + 4:])
    yield edition_harm("63 desks", last, lambda it: it.cut.pop())
    yield edition_harm("65 desks", last, lambda it: it.cut.append(0))
    yield edition_harm("a role that there is not", last, of_row(1, role=3))
    key = press.editions[-1].row(1).key
    for name, other in (("exponent", key[:-1] + b"\x03"), ("length", key[:8] + b"\x7f" + key[9:]),
                        ("head", b"\x31" + key[1:]), ("sign", key[:8] + b"\x01" + key[9:])):
        yield edition_harm(f"a key of another {name}", last, of_row(1, key=other))
    yield payload_harm("a kind of change that there is not", last, with_other_kind(press.editions[-1]))
    yield edition_harm("a URI that is no UTF-8", last, lambda it: it.changes[-1].__setitem__(0, it.changes[-1][0] + b"\xff"))


def with_other_kind(edition):
    """Changes the kind of the last change."""
    uri, content = edition.changes[-1]
    from_end = 1 + 4 + len(uri) + (0 if content is None else 4 + len(content))
    return lambda it: it[:-from_end] + b"\x03" + it[len(it) - from_end + 1:]


def of_numbers(press):
    last = len(press.editions)
    before, edition = press.editions[-2], press.editions[-1]
    for serial in (0, before.serial, edition.serial + 1, GREATEST, GREATEST + 1, 2**64 - 1):
        yield edition_harm(f"serial {serial}", last, setting(serial=serial))
    for serial in (0, 2):
        yield edition_harm(f"serial {serial}", 1, setting(serial=serial))
    for moment in (0, before.moment - 1, before.moment, LAST_MOMENT + 1, 2**64 - 1):
        yield edition_harm(f"moment {moment}", last, setting(moment=moment))
    yield edition_harm(f"moment {FIRST_MOMENT - 1}", 1, setting(moment=FIRST_MOMENT - 1))
    yield edition_harm("a cut that falls", last, lambda it: it.cut.__setitem__(0, before.cut[0] - 1))
    yield edition_harm("a cut that falls to nothing", last, lambda it: it.cut.__setitem__(1, 0))
    for field in ("number", "next_serial"):
        for value in (GREATEST + 1, 2**64 - 1):
            yield edition_harm(f"{field} {value}", last, of_row(1, **{field: value}))


def add_entry(desk, serial, not_after, revoked_at):
    """One more entry of a key's CRL, in its place."""
    def change(edition):
        entries = edition.row(desk).entries
        entries.append([serial, not_after, revoked_at])
        entries.sort()
    return change


def of_entries(press):
    last = len(press.editions)
    edition = press.editions[-1]
    later = edition.moment + 86400
    for revoked_at in (0, FIRST_MOMENT - 1, edition.moment + 1, 2**64 - 1):
        yield edition_harm(f"revoked at {revoked_at}", last, add_entry(1, 10**6, later, revoked_at))
    yield edition_harm("an entry twice", last, lambda it: it.row(1).entries.append(it.row(1).entries[-1]))
    yield edition_harm("entries that don't rise", last, lambda it: it.row(1).entries.reverse())


def of_changes(press):
    last = len(press.editions)
    gone = next(uri for uri, content in press.editions[-1].changes if content is None)
    yield edition_harm("changes that don't rise", last, lambda it: it.changes.reverse())
    yield edition_harm("a change twice", last, lambda it: it.changes.append(it.changes[-1]))
    yield edition_harm("nothing stands where something is withdrawn", last,
                       lambda it: it.changes.append([FOLDER + b"zz.roa", None]))
    yield edition_harm("what is withdrawn was never put", last - 1, lambda it: add_change(it, gone + b"x", None))
    yield press_harm(f"record {last}: what it withdraws was withdrawn before",
                     lambda press: withdrawn_before(press, gone), f"BadRecord device {PRESS} at {last}")


def add_change(edition, uri, content):
    """One more change, in its place."""
    edition.changes.append([uri, content])
    edition.changes.sort(key=lambda it: it[0])


def withdrawn_before(press, uri):
    """The edition before the last one withdraws it already."""
    changes = press.editions[-2].changes
    changes[:] = sorted([change for change in changes if change[0] != uri] + [[uri, None]])


def other_key(row, by=1):
    """Another key of the form of keys."""
    return row.key[:100] + bytes([row.key[100] ^ by]) + row.key[101:]


def beside(desk, place, role, **values):
    """One more key, of this role, behind (1) or before (0) the current one of a desk."""
    def change(edition):
        current = edition.row(desk)
        row = copy.deepcopy(current)
        row.role, row.key, row.entries = role, other_key(current), []
        for name, value in values.items():
            setattr(row, name, value)
        edition.rows.insert(edition.rows.index(current) + place, row)
    return change


def both(*changes):
    def change(edition):
        for one in changes:
            one(edition)
    return change


def lone_row(edition):
    """The key of an authority that there isn't."""
    return Row(5, 0, CURRENT, other_key(edition.row(1)), 7, 3, edition.moment, 0, 0)


def of_roles(press):
    last = len(press.editions)
    edition = press.editions[-1]
    since = edition.moment - 1
    yield edition_harm("no key at all", last, lambda it: it.rows.clear())
    yield edition_harm("no key of the anchor", last, lambda it: it.rows.pop(0))
    yield edition_harm("an old key of the anchor", last, beside(0, 1, OLD))
    yield edition_harm("a new key of the anchor", last, both(of_row(0, since=since), beside(0, 0, NEW)))
    yield edition_harm("the anchor's key is new", last, of_row(0, role=NEW))
    yield edition_harm("the anchor's key comes last", last, lambda it: it.rows.append(it.rows.pop(0)))
    yield edition_harm("a new key alone", last, of_row(1, role=NEW, since=since))
    yield edition_harm("an old key alone", last, of_row(1, role=OLD))
    yield edition_harm("two current keys", last, beside(1, 1, CURRENT))
    yield edition_harm("a new key behind the current one", last, both(of_row(1, since=since), beside(1, 1, NEW)))
    yield edition_harm("an old key before the current one", last, beside(1, 0, OLD))
    yield edition_harm("two new keys", last, both(of_row(1, since=since), beside(1, 0, NEW), beside(1, 0, NEW)))
    yield edition_harm("a new, a current and an old key", last,
                       both(of_row(1, since=since), beside(1, 1, OLD, key=other_key(edition.row(1), 2)), beside(1, 0, NEW)))
    yield edition_harm("keys whose desks don't rise", last, lambda it: it.rows.insert(1, lone_row(edition)))
    yield edition_harm("two keys with one identifier", last, of_row(1, key=edition.row(0).key))
    yield edition_harm("a new key that is the current one", last,
                       both(of_row(1, since=since), beside(1, 0, NEW, key=edition.row(1).key)))
    yield edition_harm("two keys that differ in since", last, both(of_row(1, since=since), beside(1, 0, NEW, since=since + 1)))
    yield edition_harm("two keys that differ in done", last, beside(1, 1, OLD, done=edition.row(1).done + 1))
    yield edition_harm("since where no key is new", last, of_row(1, since=since))


# ---- what stands in the set, and beside the desks

def flip(at):
    """Changes the lowest bit of a byte."""
    return lambda content: content[:at] + bytes([content[at] ^ 1]) + content[at:][1:]


def spoil(press, uri, change):
    """Changes the bytes at a URI, or takes them away, as if the last edition had done so."""
    edition, content = press.editions[-1], change(press.set()[uri])
    edition.changes = [it for it in edition.changes if it[0] != uri]
    if content is not None or was_before(press, uri):
        add_change(edition, uri, content)


def of_set(press):
    stands = press.set()
    anchor = FOLDER + b"ta.cer"
    cer, crl, mft, roa = (min(uri for uri in stands if uri.endswith(ending) and folder in uri) for ending, folder in (
        (b".cer", b"/ta/"), (b".crl", b"/isp/"), (b".mft", b"/isp/"), (b".roa", b"/isp/")))
    for name, uri, rule, change in (
            ("a bit at the end of a ROA", roa, "Hash", flip(-1)), ("a bit at the start of a ROA", roa, "Hash", flip(0)),
            ("a bit at the end of a CRL", crl, "Hash", flip(-1)), ("a bit at the end of a certificate", cer, "Hash", flip(-1)),
            ("a bit at the end of a manifest", mft, "Signature", flip(-1)),
            ("a bit at the end of the anchor's certificate", anchor, "Signature", flip(-1)),
            ("a manifest without its last byte", mft, "Shape", lambda content: content[:-1]),
            ("an empty manifest", mft, "Shape", lambda content: b""), ("an empty ROA", roa, "Hash", lambda content: b""),
            *((f"no {what}", uri, "Missing", lambda content: None) for what, uri in (
                ("certificate of the anchor", anchor), ("certificate", cer), ("CRL", crl), ("manifest", mft), ("ROA", roa)))):
        yield press_harm(f"set: {name}", lambda press, uri=uri, change=change: spoil(press, uri, change),
                         f"Refused uri {uri.decode()} rule {rule}")
    for more in ([FOLDER + b"zz.roa"], [FOLDER + b"isp/0/zz.roa", FOLDER + b"zz.roa"]):
        yield press_harm(f"set: {len(more)} that nothing lists",
                         lambda press, more=more: [add_change(press.editions[-1], uri, stands[roa]) for uri in more],
                         f"Unreached uri {more[0].decode()}")
    yield from of_moments(press, min(uri for uri in stands if uri.endswith(b".mft") and b"/ta/" in uri))


def of_moments(press, manifest):
    """The last edition's moment is another one: the set is audited at that one. The anchor's certificate is an earlier
    edition's, its manifest is the last one's."""
    last = press.editions[-1].moment
    for moment, told in ((last + 86400, None), (last + 86401, f"Refused uri {manifest.decode()} rule Time"),
                         (last - 1, f"Refused uri {manifest.decode()} rule Time")):
        yield press_harm(f"set: at {moment - last} seconds",
                         lambda press, moment=moment: move(press.editions[-1], moment), told)


def move(edition, moment):
    """Another moment, which nothing was revoked after."""
    edition.moment = moment
    for row in edition.rows:
        for entry in row.entries:
            entry[2] = min(entry[2], moment)


def was_before(press, uri):
    """Whether the editions before the last one leave it."""
    found = False
    for edition in press.editions[:-1]:
        for at, content in edition.changes:
            if at == uri:
                found = content is not None
    return found


def of_rows(press):
    edition = press.editions[-1]
    anchor, isp = edition.row(0), edition.row(1)

    def mismatch(name, row, field, kept, found, change):
        return press_harm(f"rows: {name}", lambda press: change(press.editions[-1]),
                          f"RowMismatch key {key_id(row)} field {field} kept {kept} found {found}")
    for desk, row in ((0, anchor), (1, isp)):
        for value in (row.number - 1, row.number + 1, GREATEST):
            yield mismatch(f"desk {desk}, number {value}", row, 0, value, row.number, of_row(desk, number=value))
        for value in (row.this_update - 1, row.this_update + 1, 0):
            yield mismatch(f"desk {desk}, thisUpdate {value}", row, 1, value, row.this_update, of_row(desk, this_update=value))
        for value in (0, row.next_serial - 1):
            yield mismatch(f"desk {desk}, next serial {value}", row, 2, value, row.next_serial - 1, of_row(desk, next_serial=value))
    yield mismatch("a row is gone", isp, 0, 0, isp.number, lambda it: it.rows.remove(it.row(1)))
    lone = lone_row(edition)
    yield mismatch("a row whose key has no point", lone, 0, lone.number, 0, lambda it: it.rows.append(lone))
    new = copy.deepcopy(isp)
    new.key = other_key(isp)
    yield mismatch("a new key without a point", new, 0, isp.number, 0,
                   both(of_row(1, since=edition.moment - 1), beside(1, 0, NEW)))
    listed = entries_of(press, 1)
    more = listed[-1] + 1
    yield mismatch("an entry more than the CRL has", isp, 3, more, 0, add_entry(1, more, edition.moment + 86400, edition.moment))
    added = isp.entries[0][0]
    behind = [serial for serial in listed if serial > added]
    yield mismatch("an entry less than the CRL has", isp, 3, behind[0] if behind else 0, added, lambda it: it.row(1).entries.pop(0))


def entries_of(press, desk):
    """The serials that the CRL of a desk's key lists, by the rule on what is dropped."""
    kept, last = {}, None
    for edition in press.editions:
        row = next((row for row in edition.rows if row.desk == desk), None)
        if row is None:
            continue
        if last is not None and row.this_update != last:
            kept = {serial: not_after for serial, not_after in kept.items() if not_after >= last}
        kept.update({serial: not_after for serial, not_after, _ in row.entries})
        last = row.this_update
    return sorted(kept)


def of_signers(press):
    yield press_harm("a key of a signer that isn't there", lambda press: of_row(1, signer=1)(press.editions[-1]),
                     "WrongCount what 1 needed 2 found 1")
    yield press_harm("a key of the last signer that there can be", lambda press: of_row(0, signer=2**32 - 1)(press.editions[-1]),
                     f"WrongCount what 1 needed {2**32} found 1")


def desk_harm(name, desk, change, told):
    def do(files):
        files[DESK.format(desk)] = change(files[DESK.format(desk)])
    return Harm(f"desk {desk}: {name}", do, told)


def without_last(content):
    return journal_of(records_of(content)[:-1])


def of_desks(press, files):
    cut = press.editions[-1].cut
    for desk in (0, 1):
        content = files[DESK.format(desk)]
        count = len(records_of(content))
        yield desk_harm("its last byte is gone", desk, lambda it: it[:-1], f"Damaged device {desk} at {len(content) - 1}")
        yield desk_harm("a record that is none", desk, lambda it: journal_of([*records_of(it)[:-1], b"\xff"]),
                        f"BadRecord device {desk} at {count - 1}")
        yield desk_harm("it is empty", desk, lambda it: b"", f"CutPast desk {desk} cut {cut[desk]} held 0")
    yield desk_harm("its last command is gone", 1, without_last, f"CutPast desk 1 cut {cut[1]} held {cut[1] - 1}")
    yield desk_harm("bytes behind the last gate", 1, lambda it: it + b"\x01anything", None)


# ---- what the desks say now

COMMAND, V4 = b"\x07", b"\x00"


def origin(third, asn):
    """The bytes of 10.0.THIRD.0/24 => ASN, as a command's record has them."""
    return V4 + bytes(12) + bytes([10, 0, third, 0]) + bytes([24, 24]) + asn.to_bytes(4, "big")


def uri_of(third, asn):
    """Where the ROA of that origin stands."""
    return (FOLDER + b"isp/0/").decode() + f"10.0.{third}.0/24 => {asn}".encode().hex() + ".roa"


def update(*origins):
    return COMMAND + len(origins).to_bytes(4, "big") + b"".join(origins) + bytes(4)


def of_origins():
    """Another command stands where the authority's origins were added: as many commands, and others are owed."""
    kept = [origin(third, 64496) for third in (1, 2, 3)]
    for name, origins, told in (
            ("one less", kept[:2], uri_of(3, 64496)), ("none", [], uri_of(1, 64496)),
            ("one more", [*kept, origin(0, 64496)], uri_of(0, 64496)), ("one more behind", [*kept, origin(4, 1)], uri_of(4, 1)),
            ("another AS number", [*kept[:2], origin(3, 64495)], uri_of(3, 64495)),
            ("a greater AS number", [*kept[:2], origin(3, 64497)], uri_of(3, 64496)),
            ("others in another order", kept[::-1], None)):
        def change(content, origins=origins):
            payloads = records_of(content)
            at = payloads.index(update(*kept))
            return journal_of([*payloads[:at], update(*origins), *payloads[at + 1:]])
        yield desk_harm(f"origins: {name}", 1, change, told and f"OriginsDiffer uri {told}")


def of_bases(press):
    for words, kept, given in (
            (("--rsync", "rsync://other.example/repo/"), "rsync://rpki.example/repo/", "rsync://other.example/repo/"),
            (("--rrdp=https://other.example/rrdp/",), "https://rpki.example/rrdp/", "https://other.example/rrdp/"),
            (("--rrdp", "https://other.example/", "--rsync=rsync://other.example/m/"), "rsync://rpki.example/repo/", "rsync://other.example/m/")):
        yield Harm(f"bases: {' '.join(words)}", lambda files: None, f"SiteDiffers kept {kept} given {given}", words=words)


def all_harms(press, files):
    """Every harm of a store of which the press was read so."""
    for of in (of_bytes, of_shape, of_numbers, of_entries, of_changes, of_roles, of_set, of_rows, of_signers, of_bases):
        yield from of(press)
    yield from of_origins()
    yield from of_desks(press, files)
