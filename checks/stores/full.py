"""A store whose press has little room left. A publication that needs more is refused, and changes nothing; one that needs just
what is left is made."""
import copy, json, os, struct, subprocess

from journal import CLOSED, CURRENT, OPEN, Press, Row

LIMIT = 2**30
# What fills a journal: keys of which each lives for one edition, each with so many revoked entries. Opening hashes none of it.
# Two take turns.
ENTRIES, ENTRY = 700_000, 24
DESK, MODULI = 2, (b"\x80" + b"\x01" * 255, b"\x81" + b"\x01" * 255)
# What takes the bytes that are left then.
PLACE = b"rsync://rpki.example/repo/zz"
PUBLISH, SERIAL = {"command": "publish"}, {"command": "serial"}
# Of the first one more is to be put than of the second: a digit of its name, wherever that stands.
LONGER, SHORTER = "192.0.10.0/24 => 1", "192.0.9.0/24 => 1"


def change(add, remove=()):
    return {"command": "roas update", "ca": "ta", "add": [add], "remove": [*remove]}


# What is asked of a store with room for the second one alone.
FIRST, SECOND = [change(LONGER), PUBLISH], [change(SHORTER, [LONGER]), PUBLISH]


def behind(edition, number, changes=()):
    """An edition so many behind that one, with its keys."""
    made = copy.deepcopy(edition)
    for row in made.rows:
        row.entries = []
    made.serial, made.moment, made.changes = edition.serial + number, edition.moment + number, [*changes]
    return made


def with_key(edition, key):
    """The edition with one key more, behind the others, without its entries, which come last."""
    made = copy.deepcopy(edition)
    made.rows.append(Row(DESK, 0, CURRENT, key, 1, 1, made.moment, 0, 0))
    return made


def record(edition):
    payload = edition.bytes()
    return OPEN + len(payload).to_bytes(8, "big") + payload


def record_with_entries(edition, entries):
    """The record of an edition without changes, whose last key has these entries."""
    payload = edition.bytes()
    # how many entries and how many changes there are: neither is any
    assert payload.endswith(bytes(8)), "an edition without changes"
    payload = payload[:-8] + (len(entries) // ENTRY).to_bytes(4, "big")
    return OPEN + (len(payload) + len(entries) + 4).to_bytes(8, "big") + payload + entries + bytes(4)


def fill(path, press, room):
    """Writes the press's file with editions behind its own, up to one that leaves so many bytes free. Its serial."""
    last = press.editions[-1]
    keys = [press.editions[-1].rows[0].key[:9] + it + press.editions[-1].rows[0].key[9 + 256:] for it in MODULI]
    entries = b"".join(struct.pack(">QQQ", it + 1, last.moment + 86400, last.moment) for it in range(ENTRIES))
    number, head = 0, len(record(with_key(behind(last, 1), keys[0])))
    # the last two editions put and withdraw what takes the last bytes
    spare = len(record(behind(last, 1, [[PLACE, b""]]))) + len(record(behind(last, 1, [[PLACE, None]])))
    with open(path, "wb") as file:
        file.write(press.bytes()[:-len(CLOSED)])
        left = LIMIT - room - len(CLOSED) - spare - file.tell()
        while left >= head + ENTRY:
            count = min(ENTRIES, (left - head) // ENTRY)
            number += 1
            file.write(record_with_entries(with_key(behind(last, number), keys[number % 2]), entries[:count * ENTRY]))
            left -= head + count * ENTRY
        file.write(record(behind(last, number + 1, [[PLACE, bytes(left)]])))
        file.write(record(behind(last, number + 2, [[PLACE, None]])))
        file.write(CLOSED)
    return last.serial + number + 2


def full(held, needed):
    return {"code": 22, "detail": f"{held} {needed}", "refused": "JournalFull"}


def is_published(reply, serial):
    return (reply.get("reply"), reply.get("serial")) == ("published", serial)


def try_full(krillc, folder, kept):
    """What is wrong with such a store, if anything, and what was tried."""
    data = os.path.join(folder, "krill-data")
    os.makedirs(data)
    path, press = os.path.join(data, "press"), Press.read(kept["press"])

    def put():
        for name, content in kept.items():
            with open(os.path.join(data, name), "wb") as file:
                file.write(content)

    def run(lines):
        given = "".join(json.dumps(line) + "\n" for line in lines)
        done = subprocess.run([krillc, "run"], cwd=folder, input=given, capture_output=True, text=True)
        return done.returncode, [json.loads(reply) for reply in done.stdout.splitlines()]

    def taken(lines):
        """How many bytes the edition takes that these lines end with."""
        put()
        _, replies = run(lines)
        return os.path.getsize(path) - len(kept["press"]) if is_published(replies[-1], press.editions[-1].serial + 1) else 0

    more, just = taken(FIRST), taken(FIRST[:1] + SECOND)
    if not 0 < just < more < just + 16:
        return f"editions that take {just} and {more} bytes", None
    put()
    serial = fill(path, press, just)
    status, replies = run([*FIRST, PUBLISH, SERIAL, *SECOND, PUBLISH, change(LONGER), PUBLISH, SERIAL])
    refused, again, before, made, nothing, late, after = (replies[it] for it in (1, 2, 3, 5, 6, 8, 9)) if len(replies) == 10 else [{}] * 7
    is_well = (
        status == 0 and all(replies[it]["reply"] == "accepted" for it in (0, 4, 7))
        and refused == again == full(LIMIT - just, more) and before["serial"] == serial
        and is_published(made, serial + 1) and nothing["refused"] == "Nothing"
        and late["refused"] == "JournalFull" and late["detail"].startswith(f"{LIMIT} ") and after["serial"] == serial + 1
        and os.path.getsize(path) == LIMIT)
    os.remove(path)
    told = f"a press with {just} bytes left and an edition that needs {more}"
    return None if is_well else f"{told}, behind serial {serial}: status {status}, {replies}", told
