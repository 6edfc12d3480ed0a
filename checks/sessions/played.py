"""A program that is right, played: sessions over one store, whose steps come in a random order. Each command and each look at
an authority is one step, as if behind a lock of its own; a publication gathers authority by authority, while others go on.

What is seen of such a run from outside breaks no rule. So the judge has to find nothing in it, and something where the program
is made wrong."""
import json, random

from lines import Lines, first_lines
from logs import Heard, Run, Session, sent
from model import ANCHOR, NO_RESOURCES, Config, Edition, Told, desk_of, full, origin_text, rank, rules

CLOCK = 1_800_000_000


class Store:
    """Desks and editions."""

    def __init__(self):
        self.commands, self.configs = {ANCHOR: []}, {ANCHOR: Config(ANCHOR)}
        self.tree, self.cut, self.editions, self.told = rules.Tree(), {}, [], {}
        self.shown, self.is_pressing = 0, False

    def commit(self, line):
        """The place of the command, or its refusal."""
        name = desk_of(line)
        refusal = self.configs[name].verdict(line)
        if refusal:
            return refused(*refusal)
        self.configs[name].take(line)
        self.commands[name].append(full(line))
        if line["command"] == "add":
            self.commands[line["ca"]], self.configs[line["ca"]] = [], Config(line["ca"])
        return {"authority": name, "count": len(self.commands[name]), "reply": "accepted"}

    def press(self, cut, clock):
        """Makes the edition of what was gathered, if there is something to do."""
        gathered = {name: self.commands[name][self.cut.get(name, 0):count] for name, count in cut.items()}
        for name in sorted(gathered, key=lambda name: name != ANCHOR):
            for line in gathered[name]:
                self.tree.take(json.dumps(line))
        self.cut = cut
        said = self.tree.publish(clock)
        if not said.startswith("serial"):
            return refused(24, "Nothing", str(len(self.editions)))
        told = Told(self.tree)
        stages = {name: "staged" if one.of_role("new") else "retiring" if one.of_role("old") else "steady"
                  for name, one in self.tree.by.items() if one.keys}
        serial = len(self.editions) + 1
        self.told[serial] = told
        self.editions.append(Edition(serial, self.tree.moment, dict(cut), stages, len(self.tree.objects), told.paths()))
        return {"moment": self.tree.moment, "objects": len(self.tree.objects), "origins": len(told.owed),
                "reply": "published", "serial": serial}

    def certified(self, name):
        return self.told[self.shown].certified(name) if self.shown else NO_RESOURCES

    def stage(self, name):
        return self.editions[self.shown - 1].stages.get(name, "none") if self.shown else "none"

    def state(self, name, origin):
        return self.told[self.shown].state(name, origin) if self.shown else "held"


def refused(code, name, detail):
    return {"code": code, "detail": detail, "refused": name}


def nobody(name):
    return refused(20, "NoSuchAuthority", name)


class Program:
    """Answers lines over a store, step by step: each `yield` lets others go on. An answer is the reply, and whether it is to
    be given before the next line is answered."""

    def __init__(self, store, draw):
        self.store, self.draw, self.clock = store, draw, CLOCK

    def answer(self, session, given):
        yield
        line = given.line
        if line is None:
            return refused(31, "BadLine", ""), False
        if given.is_command():
            return (yield from self.command(session, line))
        match line["command"]:
            case "publish":
                return (yield from self.publish(session))
            case "serial":
                return {"reply": "serial", "serial": self.look(session)}, False
            case "await":
                return (yield from self.wait_for(session, line["serial"])), False
            case "list":
                return (yield from self.list(session)), False
            case _:
                return (yield from self.read(session, line)), False

    def look(self, session):
        return self.store.shown

    def config(self, session, name):
        return self.store.configs[name]

    def command(self, session, line):
        name = desk_of(line)
        if name not in self.store.configs:
            return nobody(name), False
        yield
        reply = self.commit(session, line)
        return reply, "reply" in reply

    def commit(self, session, line):
        return self.store.commit(line)

    def wait_for(self, session, serial):
        for _ in range(self.draw.randrange(1, 9)):
            seen = self.look(session)
            if seen >= serial:
                return {"reply": "reached", "serial": seen}
            yield
        return refused(30, "NotYet", str(seen))

    def list(self, session):
        names, rows = list(self.store.configs), []
        for name in names:
            rows.append({"deleted": self.config(session, name).deleted, "name": name})
            yield
        return {"authorities": rows, "reply": "list"}

    def read(self, session, line):
        name = line["ca"]
        if name not in self.store.configs:
            return nobody(name)
        yield
        if line["command"] == "history commands":
            rows = [{"count": number, "line": it} for number, it in enumerate(self.history(session, name), 1)]
            return {"authority": name, "commands": rows, "reply": "history commands"}
        config = self.config(session, name).copy()
        yield
        seen = self.look(session)
        shown, self.store.shown = self.store.shown, seen
        if line["command"] == "show":
            reply = {"authority": name, "certified": self.store.certified(name), **config.shown(), "reply": "show",
                     "serial": seen, "stage": self.store.stage(name)}
        else:
            rows = [{"origin": origin_text(origin), "state": self.store.state(name, origin)}
                    for origin in sorted(config.origins, key=rank)]
            reply = {"authority": name, "origins": rows, "reply": "roas list", "serial": seen}
        self.store.shown = shown
        return reply

    def history(self, session, name):
        return list(self.store.commands[name])

    def publish(self, session):
        while self.store.is_pressing:
            yield
        self.store.is_pressing = True
        yield
        cut = yield from self.gather(session)
        for _ in range(self.draw.randrange(12)):
            yield
        self.clock += self.draw.randrange(3)
        reply = self.store.press(cut, self.clock)
        yield
        if "reply" in reply:
            self.show(reply["serial"])
        self.store.is_pressing = False
        return reply, "reply" in reply

    def gather(self, session):
        cut, names = {ANCHOR: len(self.store.commands[ANCHOR])}, list(self.store.configs)
        for name in names:
            cut.setdefault(name, len(self.store.commands[name]))
            yield
        return cut

    def show(self, serial):
        self.store.shown = serial


class Seat:
    """A session of the played program, and its client: lines that were given, and replies that were given and not heard."""

    def __init__(self, name, texts, window):
        self.session, self.texts, self.window = Session(name), list(texts), window
        self.taken, self.answering, self.waiting, self.told = 0, None, [], []
        self.is_to_tell = False

    def is_done(self):
        return not self.texts and len(self.session.heard) == len(self.session.sent)

    def give(self, now):
        if self.texts and len(self.session.sent) - len(self.session.heard) < self.window:
            self.session.sent.append(sent(self.texts.pop(0), now))

    def hear(self, now):
        self.session.heard += [Heard(reply, now) for reply in self.told]
        self.told = []

    def step(self, program):
        if self.is_to_tell:
            return self.tell()
        if self.answering is None:
            if self.taken == len(self.session.sent):
                return self.tell()
            self.answering = program.answer(self.session, self.session.sent[self.taken])
            self.taken += 1
        try:
            next(self.answering)
        except StopIteration as ended:
            reply, at_once = ended.value
            self.answering = None
            self.waiting.append(reply)
            self.is_to_tell = at_once

    def tell(self):
        self.told += self.waiting
        self.waiting, self.is_to_tell = [], False


def copies(commands):
    return {name: list(lines) for name, lines in commands.items()}


def play(draw, store, program, texts, killed_at=None):
    """A run of sessions with these lines, whose clients and program go on in a random order. It is killed behind so many
    steps, or comes to its end."""
    before, editions_before = copies(store.commands), len(store.editions)
    seats = [Seat(f"session {number}", of, draw.choice((1, 2, 40))) for number, of in enumerate(texts)]
    now = 0
    while not all(seat.is_done() for seat in seats) and now != killed_at:
        now += 1
        seat = draw.choice(seats)
        match draw.randrange(6):
            case 0:
                seat.give(now)
            case 1:
                seat.hear(now)
            case _:
                seat.step(program)
    for seat in seats:
        seat.hear(now)
    store.is_pressing, store.shown = False, len(store.editions)
    sessions = [seat.session for seat in seats]
    is_whole = killed_at is None or now < killed_at
    return Run(before, sessions, is_whole, copies(store.commands), list(store.editions), editions_before)


def runs(seed, program=Program, sessions=8, lines=60):
    """Some runs over one store, with kills. Gives each run."""
    draw = random.Random(seed)
    store = Store()
    for line in first_lines(4):
        store.commit(line)
    for turn in range(3):
        drawn = [Lines(draw, 8 * turn + number, 0.05) for number in range(sessions)]
        texts = [[each.next() for _ in range(lines)] for each in drawn]
        killed_at = draw.randrange(200, 8 * sessions * lines) if draw.random() < 0.6 else None
        yield play(draw, store, program(store, draw), texts, killed_at)
