"""Random lines of a session. Sessions meet at the same names and origins, so that some of their commands are refused."""
import json

NAMES = [f"a{number}" for number in range(10)]
PUBLISH = {"command": "publish"}
# Lines that are no commands of the table, each with a reply of its own.
ODD = ('{', '[]', '{"command":"nothing","#":1}', '{"command":"show","zz":1,"#":1}',
       '{"command":"roas update","ca":"ta","add":["x"],"#":1}')


def grant_of(name):
    """What the anchor grants an authority: a part of 10.0.0.0/8 that overlaps its neighbours'."""
    number = NAMES.index(name) if name in NAMES else 0
    return {"asn": f"AS{number + 1}-AS{number + 5}", "ipv4": f"10.{number}.0.0-10.{number + 2}.255.255", "ipv6": ""}


def update(name, add=(), remove=()):
    return {"command": "roas update", "ca": name, "add": [*add], "remove": [*remove]}


def first_lines(authorities):
    """A tree: each authority below the anchor, with a grant."""
    for name in NAMES[:authorities]:
        yield {"command": "add", "ca": name, "signer": 0}
        yield {"command": "children add", "ca": "ta", "child": name, "resources": grant_of(name)}
        yield {"command": "parents add", "ca": name, "parent": "ta"}


class Lines:
    """The lines of the session of that number, drawn one after another."""

    def __init__(self, draw, session, publications=0.03):
        self.draw, self.session, self.number, self.publications = draw, session, 0, publications

    def next(self):
        """A line's text."""
        self.number += 1
        if self.draw.random() < self.publications:
            return json.dumps(PUBLISH)
        way, = self.draw.choices((self.own_origin, self.shared_origin, self.on_child, self.on_tree, self.read, self.odd),
                                 (40, 15, 10, 7, 26, 2))
        line = way()
        return line if isinstance(line, str) else json.dumps(line, separators=self.draw.choice(((",", ":"), (", ", ": "))))

    def name(self):
        return self.draw.choice(["ta", *NAMES]) if self.draw.random() < 0.97 else f"nobody{self.session}"

    def own_origin(self):
        """One that no other line has. Most are certified for the anchor and some of the authorities."""
        number = self.number + 4096 * self.session
        address = f"10.{self.draw.randrange(12)}.{number // 256 % 256}.{number % 256}"
        return update(self.name(), [f"{address}/32 => {self.session + 1}"])

    def shared_origin(self):
        """One or two of few, so that they are there or not."""
        origins = [f"10.{self.draw.randrange(12)}.0.0/{self.draw.choice(('16', '16-24', '20'))} => 7" for _ in range(2)]
        added, removed = (origins[:self.draw.randrange(3)] for _ in range(2))
        return update(self.name(), added, removed)

    def on_child(self):
        ca, child = self.draw.choice(["ta", "ta", *NAMES[:3]]), self.draw.choice(NAMES)
        kind = self.draw.choice(("add", "update", "update", "remove", "suspend", "unsuspend", "unsuspend"))
        line = {"command": f"children {kind}", "ca": ca, "child": child}
        return {**line, "resources": grant_of(self.draw.choice(NAMES))} if kind in ("add", "update") else line

    def on_tree(self):
        name = self.draw.choice(NAMES)
        match self.draw.randrange(20):
            case 0:
                return {"command": "delete", "ca": self.draw.choice(NAMES[6:])}
            case 1 | 2:
                return {"command": "keyroll init", "ca": name}
            case 3:
                return {"command": "keyroll activate", "ca": name}
            case number if number < 12:
                return {"command": "add", "ca": name, "signer": 0}
            case _:
                return {"command": "parents add", "ca": name, "parent": self.draw.choice(["ta", "ta", *NAMES[:3]])}

    def read(self):
        match self.draw.randrange(10):
            case 0:
                return {"command": "list"}
            case 1:
                return {"command": "serial"}
            case 2:
                return {"command": "await", "serial": self.draw.randrange(8), "looks": self.draw.choice((1, 10, 1000))}
            case number if number < 5:
                return {"command": "show", "ca": self.name()}
            case number if number < 8:
                return {"command": "roas list", "ca": self.name()}
            case _:
                return {"command": "history commands", "ca": self.name()}

    def odd(self):
        return self.draw.choice(ODD)
