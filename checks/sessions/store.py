"""A store's files, and what is found in them."""
import json, os, shutil, sys

from logs import Run
from model import Edition
from parts import DATA, fail, run

sys.path.append(os.path.join(os.path.dirname(os.path.dirname(os.path.abspath(__file__))), "stores"))
from journal import CURRENT, NEW, Press, journal_of, records_of

BASE = b"rsync://rpki.example/repo/"


class Store:
    """The store in a folder of its own."""

    def __init__(self, folder):
        self.folder = os.path.abspath(folder)
        os.makedirs(self.path())

    def path(self, *names):
        return os.path.join(self.folder, DATA, *names)

    def remove_sessions(self):
        for name in os.listdir(self.path()):
            if name.startswith("session-"):
                os.remove(self.path(name))

    def ask(self, *lines):
        """The replies of a run of its own, of standard input alone."""
        done = run(self.folder, "run", lines="".join(json.dumps(line) + "\n" for line in lines))
        if done.returncode:
            fail(f"a run ends with status {done.returncode}: {done.stderr}")
        return [json.loads(reply) for reply in done.stdout.splitlines()]

    def found(self):
        """For each name, in their order, the lines of its accepted commands."""
        names = [row["name"] for row in self.ask({"command": "list"})[0]["authorities"]]
        replies = self.ask(*({"command": "history commands", "ca": name} for name in names))
        return {name: [row["line"] for row in reply["commands"]] for name, reply in zip(names, replies)}

    def editions(self, names):
        """The editions in the press's file, where these are the names of the desks."""
        with open(self.path("press"), "rb") as file:
            press = Press.read(file.read())
        found, standing = [], {}
        for edition in press.editions:
            for uri, content in edition.changes:
                standing.pop(uri, None)
                if content is not None:
                    standing[uri] = len(content)
            roas = {uri[len(BASE):].decode() for uri in standing if uri.endswith(b".roa")}
            cut = {name: count for name, count in zip(names, edition.cut) if count}
            found.append(Edition(edition.serial, edition.moment, cut, stages_of(edition.rows, names), len(standing), roas))
        return found

    def audit(self):
        done = run(self.folder, "audit")
        if done.returncode:
            fail(f"an audit ends with status {done.returncode}: {done.stderr}")
        return json.loads(done.stdout)

    def audit_editions(self, serials, editions):
        """Each of these editions is sound: the store opens where it is the last one."""
        with open(self.path("press"), "rb") as file:
            records = records_of(file.read())
        for serial in serials:
            copy = Store(f"{self.folder}-edition-{serial}")
            for name in os.listdir(self.path()):
                if name.startswith("desk-"):
                    shutil.copy(self.path(name), copy.path())
            with open(copy.path("press"), "wb") as file:
                file.write(journal_of(records[:serial + 1]))
            told, edition = copy.audit(), editions[serial - 1]
            wanted = (edition.serial, edition.moment, edition.objects, len(edition.roas))
            if (told["serial"], told["moment"], told["objects"], told["origins"]) != wanted:
                fail(f"an audit of edition {serial} tells {told}, not {wanted}")
            shutil.rmtree(copy.folder)


def stages_of(rows, names):
    """The stage of each authority that has keys, by the roles of these."""
    stages = {}
    for row in rows:
        stage = "steady" if row.role == CURRENT else "staged" if row.role == NEW else "retiring"
        if stages.get(names[row.desk], "steady") == "steady":
            stages[names[row.desk]] = stage
    return stages


def seen_run(store, before, editions_before, sessions, is_whole):
    """The run as the judge takes it, by what the store has behind it."""
    after = store.found()
    return Run(before, sessions, is_whole, after, store.editions([*after]), editions_before)
