"""The file of the press, read and written as docs/journal.md and docs/formats.md have it: nothing of it is the program's."""
import struct
from dataclasses import dataclass, field

HEADER, OPEN, CLOSED = b"KRILLJOURNAL0001", b"\x01", b"\x00"
DESKS, KEY_LENGTH = 64, 270
NEW, CURRENT, OLD = 0, 1, 2


def records_of(content):
    """The payloads of a journal that is whole."""
    payloads, at = [], len(HEADER)
    while content[at:at + 1] == OPEN:
        (length,) = struct.unpack_from(">Q", content, at + 1)
        payloads.append(content[at + 9:at + 9 + length])
        at += 9 + length
    return payloads


def journal_of(payloads):
    """The journal of these payloads."""
    return HEADER + b"".join(OPEN + struct.pack(">Q", len(it)) + it for it in payloads) + CLOSED


def editions_in(path):
    """How many editions the press's file has, without a look into them."""
    with open(path, "rb") as file:
        return max(len(records_of(file.read())) - 1, 0)


class Reader:
    def __init__(self, content):
        self.content, self.at = content, 0

    def bytes(self, length):
        found = self.content[self.at:self.at + length]
        assert len(found) == length, "a record ends early"
        self.at += length
        return found

    def number(self, length):
        return int.from_bytes(self.bytes(length), "big")

    def text(self):
        return self.bytes(self.number(4))


def number(value, length):
    return value.to_bytes(length, "big")


def text(content):
    return number(len(content), 4) + content


@dataclass
class Row:
    """A live key. Entries are those that the edition adds to its CRL: serial, notAfter, when revoked."""

    desk: int
    signer: int
    role: int
    key: bytes
    next_serial: int
    number: int
    this_update: int
    since: int
    done: int
    entries: list = field(default_factory=list)

    @classmethod
    def read(cls, given):
        desk, signer, role, key = given.number(4), given.number(4), given.number(1), given.bytes(KEY_LENGTH)
        counts = [given.number(8) for _ in range(4)]
        done, entries = given.number(4), given.number(4)
        return cls(desk, signer, role, key, *counts, done, [[given.number(8) for _ in range(3)] for _ in range(entries)])

    def bytes(self):
        counts = (self.next_serial, self.number, self.this_update, self.since)
        return b"".join([
            number(self.desk, 4), number(self.signer, 4), number(self.role, 1), self.key,
            *(number(it, 8) for it in counts), number(self.done, 4), number(len(self.entries), 4),
            *(number(it, 8) for entry in self.entries for it in entry)])


@dataclass
class Store:
    """The first record: whose store it is."""

    session: bytes
    rsync: bytes
    rrdp: bytes

    @classmethod
    def read(cls, payload):
        assert payload[:3] == b"\x00\x00\x01", "no store's record"
        given = Reader(payload[3:])
        return cls(given.bytes(16), given.text(), given.text())

    def bytes(self):
        return b"\x00\x00\x01" + self.session + text(self.rsync) + text(self.rrdp)


@dataclass
class Edition:
    """A later record. Changes are pairs of URI and bytes, or URI and None where it is withdrawn."""

    serial: int
    moment: int
    cut: list
    rows: list
    changes: list

    @classmethod
    def read(cls, payload):
        given = Reader(payload)
        assert given.number(1) == 1, "no edition's record"
        serial, moment = given.number(8), given.number(8)
        cut = [given.number(8) for _ in range(given.number(4))]
        rows = [Row.read(given) for _ in range(given.number(4))]
        changes = [cls.read_change(given) for _ in range(given.number(4))]
        assert given.at == len(payload), "bytes are left over"
        return cls(serial, moment, cut, rows, changes)

    @staticmethod
    def read_change(given):
        is_put = given.number(1) == 1
        uri = given.text()
        return [uri, given.text() if is_put else None]

    def bytes(self):
        changes = (text(uri) if content is None else text(uri) + text(content) for uri, content in self.changes)
        kinds = (b"\x02" if content is None else b"\x01" for _, content in self.changes)
        return b"".join([
            b"\x01", number(self.serial, 8), number(self.moment, 8),
            number(len(self.cut), 4), *(number(it, 8) for it in self.cut),
            number(len(self.rows), 4), *(row.bytes() for row in self.rows),
            number(len(self.changes), 4), *(kind + change for kind, change in zip(kinds, changes))])

    def row(self, desk, role=CURRENT):
        """The key of that desk and role."""
        return next(row for row in self.rows if (row.desk, row.role) == (desk, role))

    def change(self, ending):
        """The change of the first URI that ends so."""
        return next(change for change in self.changes if change[0].endswith(ending))


@dataclass
class Press:
    """All of a press's journal."""

    store: Store
    editions: list

    @classmethod
    def read(cls, content):
        first, *others = records_of(content)
        return cls(Store.read(first), [Edition.read(it) for it in others])

    def bytes(self):
        return journal_of([self.store.bytes(), *(it.bytes() for it in self.editions)])

    def set(self):
        """What stands at each URI behind the last edition."""
        found = {}
        for edition in self.editions:
            for uri, content in edition.changes:
                found.pop(uri, None)
                if content is not None:
                    found[uri] = content
        return found
