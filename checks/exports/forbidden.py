"""What an export is forbidden, to a user without rights: no reply says that it was done."""
import os, resource, subprocess
from dataclasses import dataclass
from typing import Callable

from place import DRAFT, Place, Wrong, below, read
from program import PUBLISH, SERIAL, Run, change, first_lines, many

NOBODY = 65534
DEVICE_FAILED = b"krillc: device failed\n"
# The press's records are shorter, and so are the files of an edition with one origin. The snapshot of one with a hundred,
# in which the same objects are in Base64, is longer.
LONGEST = 230_000


def without_rights(place):
    """How the program is started as a user without rights, to whom the place then belongs. Modes don't bind root."""
    if os.geteuid():
        return {}
    for path in ["", *below(place.top)]:
        os.chown(os.path.join(place.top, path), NOBODY, NOBODY)
    return {"user": NOBODY, "group": NOBODY, "extra_groups": []}


@dataclass
class Ban:
    """What is forbidden within an export, and what is done then as before.

    `forbid` and `allow` are given the run, and the session of its files. `is_removal`: the edition itself can be put, and
    only what it replaces can't be removed. What is put again then removes nothing (docs/rrdp.md)."""

    name: str
    forbid: Callable
    allow: Callable
    is_removal: bool = False


def mode(*parts, forbidden):
    """Sets the mode of what stands at a path in the repository, where `S` is the session, and back."""
    def path(run, session):
        return run.place.path(*(session if it == "S" else it for it in parts))

    before = {}

    def forbid(run, session):
        before[run] = os.stat(path(run, session)).st_mode & 0o7777
        os.chmod(path(run, session), forbidden)

    def allow(run, session):
        os.chmod(path(run, session), before[run])
    return forbid, allow


def folder_in_place_of(name):
    """Puts a folder with a file in it in the place of a file."""
    def forbid(run, _):
        path = run.place.path(name)
        if os.path.exists(path):
            os.rename(path, os.path.join(run.place.top, "away"))
        os.mkdir(path)
        with open(os.path.join(path, "inside"), "wb"):
            pass

    def allow(run, _):
        path = run.place.path(name)
        os.remove(os.path.join(path, "inside"))
        os.rmdir(path)
        if os.path.exists(os.path.join(run.place.top, "away")):
            os.rename(os.path.join(run.place.top, "away"), path)
    return forbid, allow


BANS = [
    Ban("to write into the repository", *mode(forbidden=0o555)),
    Ban("to enter the repository", *mode(forbidden=0o000)),
    Ban("to write into the session's folder", *mode("S", forbidden=0o555)),
    Ban("to enter the session's folder", *mode("S", forbidden=0o000)),
    Ban("to remove the snapshot that is left", *mode("S", "1", forbidden=0o555), is_removal=True),
    Ban("to enter the folder of the snapshot that is left", *mode("S", "1", forbidden=0o000), is_removal=True),
    Ban("to draft a file", *folder_in_place_of(DRAFT)),
    Ban("to put the anchor's certificate", *folder_in_place_of("ta.cer")),
    Ban("to put the notification", *folder_in_place_of("notification.xml")),
]


class Session:
    """A run by a user without rights, and what it publishes."""

    def __init__(self, name, **more):
        self.place = Place(name)
        self.run = Run(self.place, **more, **without_rights(self.place))
        self.session = None
        self.run.send(*first_lines())
        self.run.hear(len(first_lines()))
        self.place.check_around()
        self.publishes(1)
        self.session = self.place.check()[0]

    def wants(self, told, wanted):
        if told != wanted:
            raise Wrong(f"{told} is told, and {wanted} has to be")

    def stands(self, serial):
        """The edition of that serial stands in the repository."""
        found = self.place.check()
        if found[1] != serial or self.session not in (None, found[0]):
            raise Wrong(f"{found} stands, and serial {serial} of {self.session} has to")

    def publish(self):
        """The reply to a publication: the word and the serial."""
        reply = self.run.ask(PUBLISH)
        return reply.get("reply") or reply["refused"], int(reply.get("serial", reply.get("detail")))

    def publishes(self, serial):
        """A change is published, and nothing forbids it."""
        self.run.ask(change())
        self.wants(self.publish(), ("published", serial))
        self.stands(serial)

    def kill(self):
        if self.run.program.poll() is None:
            self.run.kill()


class Trial(Session):
    """A ban on its way."""

    def __init__(self, ban):
        super().__init__("forbidden " + ban.name, stderr=subprocess.PIPE)
        self.ban = ban
        self.publishes(2)

    def forbid(self):
        self.ban.forbid(self.run, self.session)

    def allow(self):
        self.ban.allow(self.run, self.session)

    def has_snapshot(self, serial):
        return os.path.exists(self.place.path(self.session, str(serial), "snapshot.xml"))

    def publishes_forbidden(self, serial, told, stands):
        """What is told of a publication that is forbidden, and which edition stands then, with the one before it."""
        self.forbid()
        self.wants(self.publish(), (told, serial))
        self.wants(self.run.ask(SERIAL), {"reply": "serial", "serial": serial})
        self.allow()
        self.stands(stands)
        if not self.has_snapshot(stands - 1):
            raise Wrong(f"behind serial {stands} the snapshot before is gone")

    def ends(self, status, said):
        """The end of the run, while it is still forbidden."""
        self.forbid()
        self.wants(self.run.end(), status)
        self.allow()
        self.wants(self.run.program.stderr.read().splitlines(keepends=True)[1:], said)

    def try_put(self):
        """The edition can't be put: it is told so until it can, and at the end."""
        self.run.ask(change())
        self.publishes_forbidden(3, "OutletFault", stands=2)
        self.publishes_forbidden(3, "OutletFault", stands=2)
        self.wants(self.publish(), ("Nothing", 3))
        self.stands(3)
        self.publishes(4)
        self.run.ask(change())
        self.publishes_forbidden(5, "OutletFault", stands=4)
        self.ends(4, [DEVICE_FAILED])
        self.stands(4)

    def try_removal(self):
        """The edition can be put, and what is left can't be removed: it is told so, and stays."""
        self.run.ask(change())
        self.publishes_forbidden(3, "OutletFault", stands=3)
        self.publishes_forbidden(3, "Nothing", stands=3)
        self.publishes(4)
        if not self.has_snapshot(1):
            raise Wrong("a snapshot is gone that couldn't be removed")
        self.ends(0, [])

    def try_all(self):
        self.try_removal() if self.ban.is_removal else self.try_put()


def try_ban(ban):
    trial = Trial(ban)
    try:
        trial.try_all()
    finally:
        trial.kill()
        trial.run.program.stderr.close()


def try_long_files():
    """Files may be so long and no longer, which gives an error and no signal: an edition with more origins isn't put."""
    session = Session(
        "long files", restore_signals=False,
        preexec_fn=lambda: resource.setrlimit(resource.RLIMIT_FSIZE, (LONGEST, LONGEST)))
    try:
        more = many(100, first=1)
        session.run.ask(more)
        session.wants(session.publish(), ("OutletFault", 2))
        session.wants(session.publish(), ("OutletFault", 2))
        session.stands(1)
        session.run.ask({**more, "add": [], "remove": more["add"]})
        session.wants(session.publish(), ("published", 3))
        session.stands(3)
        session.wants(session.run.end(), 0)
    finally:
        session.kill()


def try_all():
    """Tries each ban, and files that are too long. Gives how many bans there are."""
    for name, trial in [*((ban.name, lambda ban=ban: try_ban(ban)) for ban in BANS), ("to write long files", try_long_files)]:
        try:
            trial()
        except Wrong as error:
            raise Wrong(f"where it is forbidden {name}: {error}") from None
    return len(BANS) + 1
