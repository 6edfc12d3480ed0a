"""Stores with an object that no press makes: of test_run's cases the bytes of the press's file and what is to be told, by the model of
the rules (press_model.py). Most are accepted when they are opened, and there is an edition behind them, of which a strange object
fits nothing that is wanted; a store whose manifest is of another moment than its key's row is refused."""
import hashlib
import json
import re
from press_model import CERTIFICATE_LIFE, POINT_LIFE, Press, Rehearsal, general, ip_blocks, roa_content

FIRST, SECOND = 1767225600, 1767265600
STARTS = bytes(32).hex(), (bytes(31) + b"\1").hex()
CHILD = "isp"


def grant(command, prefix):
    return {"command": command, "ca": "ta", "child": CHILD, "resources": {"ipv4": prefix}}


def adds(ca, *origins):
    return {"command": "roas update", "ca": ca, "add": [*origins]}


BEGUN = [{"command": "add", "ca": CHILD, "signer": 0}, grant("children add", "10.0.0.0/8"),
         {"command": "parents add", "ca": CHILD, "parent": "ta"}]
ROUTE, OTHER = adds(CHILD, "10.0.1.0/24 => 9"), adds("ta", "192.0.2.0/24 => 9")


class Strange(Press):
    """A press whose first edition is another one's. `lines` are the commands of the first edition and of the next one."""
    lines = [*BEGUN, ROUTE], [OTHER]
    is_opened = True

    def forget(self, *endings):
        """What stands at these URIs fits nothing: an authority's point is told by its manifest's."""
        for uri in [uri for uri in self.objects if uri.endswith(endings)]:
            key, content = self.objects.pop(uri)[:2]
            if content == "point":
                self.points.pop(key, None)

    def child(self):
        return next(key for key in self.kept.values() if key.name != "ta")


class OtherManifest(Strange):
    """The child's first manifest says another moment than the model's: `other` gives the model's and the one in its place."""

    def points_over(self, moment, live, homes, new, before):
        make = self.maker.signed_object

        def changed(issuer, home, uri, kind, content, *more):
            if kind == "manifest" and issuer.name == CHILD and not self.serial:
                content = content.replace(*map(general, self.other(moment)))
            return make(issuer, home, uri, kind, content, *more)
        self.maker.signed_object = changed
        points = super().points_over(moment, live, homes, new, before)
        self.maker.signed_object = make
        return points


class ShorterManifest(OtherManifest):
    """Its nextUpdate is before its certificate's end and before that of its CRL."""

    def other(self, moment):
        return moment + POINT_LIFE, moment + 30000

    def harm(self):
        self.forget(self.child().file("mft"))


class EarlierManifest(OtherManifest):
    """Its thisUpdate is a second before that of its CRL, which is the row's."""
    is_opened = False

    def other(self, moment):
        return moment, moment - 1

    def refusal(self):
        """The row's field 1, its thisUpdate, isn't the manifest's."""
        return f"3 opening refused: RowMismatch key {self.child().id.hex()} field 1 kept {FIRST} found {FIRST - 1}"


class WiderRoa(Strange):
    """The certificate of the child's first ROA holds all of 10.0.0.0/16, of which the next edition leaves it 10.0.0.0/20."""
    lines = [*BEGUN, ROUTE], [grant("children update", "10.0.0.0/20")]

    def roa(self, by, home, uri, entries, moment):
        if self.serial:
            return super().roa(by, home, uri, entries, moment)
        first = entries[0][1] & ~0xffff
        return self.maker.signed_object(by, home, uri, "ROA", roa_content(entries), moment, moment + CERTIFICATE_LIFE,
                                        by.serial(), by.signer.make(), ip_blocks(((first, first + 0xffff),), ()), None)

    def harm(self):
        self.forget(".roa")


class OtherFolder(Strange):
    """The child, which has no origins, publishes in the folder of another name."""
    lines = BEGUN, [OTHER]

    def key(self, name):
        made = super().key(name)
        if name == CHILD:
            self.kept[made].name = "other"
        return made

    def harm(self):
        child = self.child()
        self.forget(child.file("mft"), f"{child.id.hex()}.cer")
        child.name = CHILD


KINDS = {
    "a store whose manifest ends before its certificate, as no press makes it: the next edition has another, and is sound":
        ShorterManifest,
    "a store whose ROA's certificate holds more than its prefix, as no press makes it: the next edition has another, and is sound":
        WiderRoa,
    "a store whose certificate names another folder than its authority's, as no press makes it: the next edition has another, "
    "and is sound": OtherFolder,
    "a store whose manifest was made at another moment than its key's row says: it isn't opened, and nothing is touched":
        EarlierManifest,
}


def reply(**members):
    return json.dumps(members, sort_keys=True, separators=(",", ":"))


def told(press, lines):
    for line in lines:
        press.take(json.dumps(line))
        desk = "ta" if line["command"] == "add" else line["ca"]
        yield reply(authority=desk, count=press.counts[desk], reply="accepted")


def shown(replies):
    return "".join(f"{each}␊" for each in replies)


def left(press):
    journal = press.journal()
    return f"{len(journal)} {hashlib.sha256(journal).hexdigest()} 0"


def case(name, session):
    """The steps of the case, and what it tells."""
    press = KINDS[name](STARTS[:1], session)
    begun, behind = press.lines
    first = [*told(press, begun)]
    press.publish(FIRST)
    store = press.journal()
    steps = [name, "word run", "disks 64", *(f"line {reply(**line)}" for line in begun), "run", "replies", f"press {store.hex()}",
             "unsigned", f"rehearsal {STARTS[1]}", f"clock {SECOND}", *(f"line {reply(**line)}" for line in behind),
             'line {"command":"publish"}', "run", "replies", "press-left", "reword audit", "run", "replies"]
    second = opened(press, behind) if press.is_opened else [press.refusal(), "", left(press), press.refusal(), ""]
    return steps, [name, "0", shown(first), *second]


def opened(press, lines):
    """What is told of the next edition, behind these commands, and of an audit."""
    press.harm()
    press.signers = [Rehearsal(STARTS[1])]
    for key in press.kept.values():
        key.signer = press.signers[0]
    second = [*told(press, lines)]
    origins = int(re.search(r"(\d+) origins", press.publish(SECOND))[1])
    counts = {"moment": SECOND, "objects": len(press.set), "origins": origins}
    second.append(reply(**counts, reply="published", serial=2))
    audited = reply(**counts, points=len(press.kept), serial=2)
    return ["0", shown(second), left(press), "0", shown([audited])]
