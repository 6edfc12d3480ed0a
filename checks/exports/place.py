"""A store's folder with its repository, and what has to be true of it whatever was cut short there."""
import base64, hashlib, os, re, sys, threading, time
import xml.etree.ElementTree as xml

sys.path.append(os.path.join(os.path.dirname(os.path.dirname(os.path.abspath(__file__))), "stores"))
from journal import editions_in

RRDP, RSYNC = "https://rpki.example/rrdp/", "rsync://rpki.example/repo/"
SPACE = "{http://www.ripe.net/rpki/rrdp}"
UUID = "[0-9a-f]{8}-[0-9a-f]{4}-4[0-9a-f]{3}-[89ab][0-9a-f]{3}-[0-9a-f]{12}"
EDITION_FOLDER = re.compile(f"{UUID}(/[1-9][0-9]*)?")
EDITION_FILE = re.compile(f"({UUID})/([1-9][0-9]*)/(snapshot|delta)\\.xml")
LOCATOR = re.compile(f"{RSYNC}ta.cer\n{RRDP}ta.cer\n\n[A-Za-z0-9+/=]{{392}}\n".encode())
DRAFT, FOREIGN = ".draft", "index.html"
# What stands in the repository beside the files of editions.
OTHERS = {"notification.xml", "ta.cer", "ta.tal", DRAFT, FOREIGN}
# Names that an export could hit where it puts a path together wrongly.
BESIDE = ("notification.xml", "ta.cer", "ta.tal", DRAFT, "1/snapshot.xml")


class Wrong(Exception):
    """What is wrong."""


def read(path):
    with open(path, "rb") as file:
        return file.read()


def write(path, content=b"stays\n"):
    os.makedirs(os.path.dirname(path), exist_ok=True)
    with open(path, "wb") as file:
        file.write(content)


def below(folder):
    """The path of all that stands below a folder."""
    for place, folders, files in os.walk(folder):
        for name in folders + files:
            yield os.path.relpath(os.path.join(place, name), folder)


class Place:
    """A folder with parents, a store, a repository in it, and files beside them that have to stay."""

    def __init__(self, name):
        self.top = os.path.abspath(name)
        self.work = os.path.join(self.top, "parent", "work")
        self.data = os.path.join(self.work, "krill-data")
        self.repo = os.path.join(self.data, "repo")
        for folder in (self.top, os.path.dirname(self.work), self.work, self.data):
            for beside in BESIDE:
                write(os.path.join(folder, beside))
        write(self.path(FOREIGN))
        self.whole, self.beside = set(), None

    def path(self, *parts):
        return os.path.join(self.repo, *parts)

    def has_draft(self):
        return os.path.lexists(self.path(DRAFT))

    def kept(self):
        """How many editions the store has."""
        return editions_in(os.path.join(self.data, "press"))

    def around(self):
        """All that stands around the repository: of journals the names alone, of others all that shows a change."""
        found = {}
        for path in (os.path.join(self.top, it) for it in below(self.top)):
            if path.startswith(self.repo + "/"):
                continue
            status = os.lstat(path)
            told = status.st_mode, status.st_uid, status.st_ino
            is_journal = re.fullmatch("desk-[0-9][0-9]|press", os.path.basename(path))
            found[path] = told if is_journal or os.path.isdir(path) else (*told, status.st_mtime_ns, read(path))
        return found

    def check_around(self):
        """Nothing changed around the repository since the first time that this was asked."""
        now = self.around()
        if self.beside is None:
            self.beside = now
        changed = sorted(path for path in {*now, *self.beside} if now.get(path) != self.beside.get(path))
        if changed:
            raise Wrong(f"beside the repository there is a change: {changed[:5]}")

    def check_others(self):
        """Each file in the repository is one that may stand there, and whole."""
        for path in below(self.repo):
            if os.path.isdir(self.path(path)):
                if not EDITION_FOLDER.fullmatch(path):
                    raise Wrong(f"the folder {path} stands in the repository")
                continue
            form, status = EDITION_FILE.fullmatch(path), os.lstat(self.path(path))
            if form is None and path not in OTHERS:
                raise Wrong(f"the file {path} stands in the repository")
            known = path, status.st_ino, status.st_mtime_ns
            if form and known not in self.whole:
                root = xml.fromstring(read(self.path(path)))
                if (root.get("session_id"), root.get("serial"), root.tag) != (form[1], form[2], SPACE + form[3]):
                    raise Wrong(f"{path} is of another edition")
                self.whole.add(known)

    def notified(self):
        """The notification: session, serial, and the files that it names, with their hashes. None where none stands."""
        try:
            root = xml.fromstring(read(self.path("notification.xml")))
        except FileNotFoundError:
            return None
        parts = [part.tag.removeprefix(SPACE) for part in root]
        if root.tag != SPACE + "notification" or parts != ["snapshot"] + ["delta"] * (len(parts) - 1):
            raise Wrong("the notification is none")
        named = {part.get("uri").removeprefix(RRDP): part.get("hash") for part in root}
        return root.get("session_id"), int(root.get("serial")), named

    def check_named(self, notified):
        """Each file that the notification names stands with its hash. Gives the objects of the snapshot, by URI."""
        session, serial, named = notified
        files = {}
        for path, digest in named.items():
            try:
                files[path] = read(self.path(path))
            except OSError as error:
                raise Wrong(f"the notification of serial {serial} names {path}: {error.strerror}") from None
            if hashlib.sha256(files[path]).hexdigest() != digest:
                raise Wrong(f"{path} has another hash than the notification of serial {serial} says")
        if f"{session}/{serial}/snapshot.xml" not in files:
            raise Wrong(f"the notification of serial {serial} names another snapshot: {[*files]}")
        snapshot = xml.fromstring(files[f"{session}/{serial}/snapshot.xml"])
        return {part.get("uri"): base64.b64decode(part.text, validate=True) for part in snapshot}

    def check_anchor(self, named):
        """The anchor's certificate and its locator are put just before the notification: the certificate is the one of its
        edition, or of another one whose snapshot stands."""
        certificate = read(self.path("ta.cer"))
        snapshots = [path for path in below(self.repo) if path.endswith("/snapshot.xml")]
        text = b">" + base64.b64encode(certificate) + b"<"
        if certificate != named and not any(text in read(self.path(path)) for path in snapshots):
            raise Wrong("ta.cer is of no edition that stands")
        if not LOCATOR.fullmatch(read(self.path("ta.tal"))):
            raise Wrong("ta.tal is no locator")

    def check(self):
        """The repository is coherent, and nothing beside it changed. Gives session, serial and the count of objects, or
        None where there is no notification."""
        self.check_around()
        self.check_others()
        notified = self.notified()
        if notified is None:
            return None
        objects = self.check_named(notified)
        self.check_anchor(objects[RSYNC + "ta.cer"])
        return notified[0], notified[1], len(objects)


class Reader(threading.Thread):
    """Reads the notification and what it names, as a relying party does, while the program runs and is killed."""

    def __init__(self, place):
        super().__init__(daemon=True)
        self.place, self.wrong, self.looks, self.ended = place, None, 0, False

    def is_left_behind(self, seen):
        """Whether two editions came since then: the files of an edition stay until the next one but one."""
        now = self.place.notified()
        return now[0] != seen[0] or now[1] > seen[1] + 1

    def look(self):
        seen = self.place.notified()
        if seen is None:
            return
        try:
            self.place.check_named(seen)
        except Wrong:
            if not self.is_left_behind(seen):
                raise
        self.looks += 1

    def run(self):
        while not self.ended and self.wrong is None:
            try:
                self.look()
            except Exception as error:
                self.wrong = error
            time.sleep(0.005)

    def end(self):
        self.ended = True
        self.join()
        if self.wrong:
            raise Wrong(f"who reads meanwhile finds: {self.wrong}")
