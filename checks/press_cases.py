#!/usr/bin/env python3
"""Compares what test_press and test_run are to print of editions and their files with a model of the rules (press_model.py),
case by case; nothing is built for it. press_cases.py TOP. It takes the cases of one run with signers for rehearsals whose
commands are all accepted and whose disks and streams don't fail."""
import base64
import hashlib
import json
import os
import re
import sys
import strange_stores
from press_model import KEY_ALGORITHM, Press, bits, seq

# The session that the random bytes of test_run's cases give.
SESSION = bytes.fromhex("cb4a8eff9a7d4cdd8e92e9ba827b0aaf")
COMMANDS = {"add", "delete", "parents add", "children add", "children update", "children remove", "children suspend",
            "children unsuspend", "roas update", "keyroll init", "keyroll activate"}


class Unknown(Exception):
    """A case that the model doesn't take."""


class Outlet:
    def __init__(self, fails):
        self.calls, self.fails, self.files = 0, set(fails), {}

    def call(self, path, content):
        """Puts, or removes where there is no content. Whether it didn't fail."""
        self.calls += 1
        if self.calls in self.fails:
            return False
        if content is None:
            self.files.pop(path, None)
        else:
            self.files[path] = content
        return True


class Exporter:
    """A press and its outlet (docs/rrdp.md)."""

    def __init__(self, starts, session, fails=()):
        self.press, self.outlet, self.last, self.named = Press(starts, session), Outlet(fails), None, {}

    def locator(self):
        key = next(key for key in self.press.kept.values() if key.name == "ta")
        return (f"{self.press.rsync}ta.cer\n{self.press.https}ta.cer\n\n"
                f"{base64.b64encode(seq(KEY_ALGORITHM, bits(key.bits))).decode()}\n").encode()

    def export(self):
        """Whether it came to its end."""
        press, serial = self.press, self.press.serial
        deltas = press.named()
        self.named[serial] = [f"{serial}/snapshot.xml"] + [f"{each}/delta.xml" for each in deltas]
        goes_on = self.last is not None and self.last >= serial - 1
        self.last = None
        path = f"{press.identifier()}/"
        puts = [(f"{path}{serial}/snapshot.xml", press.snapshot_text())]
        puts += [(f"{path}{each}/delta.xml", press.deltas[each - 1]) for each in deltas if each == serial or not goes_on]
        puts += [("ta.cer", press.set["ta.cer"].bytes), ("ta.tal", self.locator()),
                 ("notification.xml", press.notification_text())]
        still = self.named[serial] + self.named.get(serial - 1, [])
        gone = [(path + each, None) for each in self.named.get(serial - 2, []) if goes_on and each not in still]
        if not all(self.outlet.call(*each) for each in puts + gone):
            return False
        self.last = serial
        return True


# ---- test_press

STEPS = re.compile(r"\{|publish |count |listed |add |remove |hours |changes$|outlet |export$")


def press_answer(fields):
    """What is printed of a case of publications: its name, the kind of its signers, their starts, failing calls and steps."""
    name, kind, starts, fails, *steps = fields
    if kind != "Rehearsal" or fails or not all(STEPS.match(each) for each in steps):
        raise Unknown
    if len(set(starts.split(" "))) != len(starts.split(" ")):
        raise Unknown
    exporter = Exporter(starts.split(" "), bytes.fromhex("00000000000040008000000000000000"))
    told = [name]
    for step in steps:
        word, _, rest = step.partition(" ")
        if step.startswith("{"):
            exporter.press.take(step)
        elif word in ("publish", "count", "listed"):
            told.append(published(exporter.press, word, int(rest)))
        elif word in ("add", "remove"):
            exporter.press.take(update(**{word: range(int(rest))}))
        elif word == "hours":
            told.append(hours(exporter.press, *map(int, rest.split())))
        elif word == "outlet":
            exporter.outlet = Outlet([int(rest)])
        elif word == "changes":
            told.append(changes(exporter.press))
        else:
            told.append(shown(exporter, exporter.export()))
    return told


def published(press, word, clock):
    before, text = press.serial, press.publish(clock)
    if press.serial != before and word != "count":
        text += f", {press.digest()}" + (f", {press.entries} entries" if word == "listed" else "")
    return text


def update(add=(), remove=()):
    """The trust anchor's origins of these numbers come or go: those with even numbers are of IPv4, the others of IPv6."""
    def origin(number):
        half = number // 2
        return f"2001:db8:{half}::/48 => 64496" if number % 2 else f"10.{half // 256}.{half % 256}.0/24 => 64496"
    lists = {word: [origin(number) for number in numbers] for word, numbers in (("add", add), ("remove", remove)) if numbers}
    return json.dumps({"ca": "ta", "command": "roas update"} | lists)


def hours(press, count, clock):
    """An edition each hour: the first adds one origin, then another one comes and goes."""
    entries = 0
    for hour in range(count):
        press.take(update(add=[min(hour, 1)]) if hour % 2 or not hour else update(remove=[1]))
        press.publish(clock + 3600 * hour)
        entries += press.entries
    return f"{press.serial} editions, {entries} entries in CRLs, {press.entries} in the last one"


def changes(press):
    told = []
    for uri, new, old in press.changes:
        told.append(f"-{uri}={old.hex()}" if new is None else
                    f"+{uri}={hashlib.sha256(new).hexdigest()}" + (f"={old.hex()}" if old else ""))
    return " ".join(told)


def shown(exporter, ended):
    files, press = exporter.outlet.files, exporter.press
    lines = files["notification.xml"].decode().split("\n")
    serial = re.search(r'serial="(\d+)">', lines[0])[1]
    named = re.findall(r"([0-9]+/(?:snapshot|delta)\.xml)", "\n".join(lines[1:]))
    of = "this" if files.get("ta.cer") == press.set["ta.cer"].bytes else "another"
    there = [str(each) for each in range(1, press.serial + 1) if f"{press.identifier()}/{each}/snapshot.xml" in files]
    return (f"{'exported' if ended else 'failed'}: notification of {serial}: {' '.join(named)}, ta.cer of {of} edition, "
            f"ta.tal of {len(files['ta.tal'])}, snapshots {' '.join(there)}")


# ---- test_run

def run_answer(fields):
    """What is printed of a case of test_run."""
    name, *steps = fields
    words, lines, clocks, fails, starts, asked = [], [], [], [], [], []
    for step in steps:
        word, _, rest = step.partition(" ")
        match word:
            case "word":
                words.append(rest)
            case "line":
                lines.append(rest)
            case "clock":
                clocks = [int(each) for each in rest.split()]
            case "outlet":
                fails = [int(each) for each in rest.split()]
            case "rehearsal":
                starts.append(rest)
            case "run" | "replies" | "file" | "press-left":
                asked.append((word, rest))
            case "unsigned" | "random":
                pass
            case "disks" if rest == "64":
                pass
            case _:
                raise Unknown
    if words != ["run"] or not 0 < len(starts) < 9 or not clocks or [word for word, _ in asked].count("run") != 1:
        raise Unknown
    exporter, replies, status = run(starts, lines, clocks, fails)
    return [name] + [part(exporter, replies, status, *each) for each in asked]


def part(exporter, replies, status, word, rest):
    if word == "run":
        return status
    if word == "replies":
        return "".join(f"{reply}␊" for reply in replies)
    content = exporter.press.journal() if word == "press-left" else exporter.outlet.files.get(rest)
    if content is None:
        return "none"
    return f"{len(content)} {hashlib.sha256(content).hexdigest()}" + (" 0" if word == "press-left" else "")


def reply(**members):
    return json.dumps(members, sort_keys=True, separators=(",", ":"))


def run(starts, lines, clocks, fails):
    """The press and its outlet, the replies, and how the run ends."""
    exporter, replies, failed = Exporter(starts, SESSION, fails), [], False
    for line in lines:
        words = json.loads(line)
        if words["command"] == "publish":
            clock = clocks.pop(0) if len(clocks) > 1 else clocks[0]
            told, failed = publish(exporter, clock, failed)
            replies.append(told)
        elif words["command"] == "await":
            replies.append(awaited(exporter.press.serial, words["serial"]))
        elif words["command"] in COMMANDS:
            try:
                exporter.press.take(line)
            except (KeyError, ValueError) as stop:
                raise Unknown from stop
            desk = "ta" if words["command"] == "add" else words["ca"]
            replies.append(reply(authority=desk, count=exporter.press.counts[desk], reply="accepted"))
        else:
            raise Unknown
    status = "4 device failed" if failed and not exporter.export() else "0"
    return exporter, replies, status


def awaited(seen, asked):
    """The reply where the last edition has the one serial and the other is waited for."""
    return reply(reply="reached", serial=seen) if seen >= asked else reply(code=30, detail=str(seen), refused="NotYet")


def publish(exporter, clock, failed):
    """The reply, and whether the last export failed."""
    press, before = exporter.press, exporter.press.serial
    told = press.publish(clock)
    if told.startswith("25 "):
        return reply(code=25, detail=str(clock), refused="ClockRange"), failed
    is_new = press.serial != before
    if (is_new or failed) and not exporter.export():
        return reply(code=29, detail=str(press.serial), refused="OutletFault"), True
    if not is_new:
        return reply(code=24, detail=str(press.serial), refused="Nothing"), False
    origins = int(re.search(r"(\d+) origins", told)[1])
    return reply(moment=press.moment, objects=len(press.set), origins=origins, reply="published", serial=press.serial), False


def strange_answer(fields):
    """What is told of a store with an object that no press makes, whose steps are the model's too."""
    if fields[0] not in strange_stores.KINDS:
        raise Unknown
    steps, told = strange_stores.case(fields[0], SESSION)
    return told if steps == fields else ["other steps than the model's"]


# ---- all cases

def lines_of(path, part):
    """The lines below the heading of the part, or all where there is no heading."""
    heading, found = None, []
    for line in open(path, encoding="utf-8").read().rstrip("\n").split("\n"):
        if line.startswith("# "):
            heading = line[2:]
        elif heading == part:
            found.append(line.split("\t"))
    return found


def compare(program, part, answer_of, top):
    compared = 0
    folder = os.path.join(top, "crates", program)
    pairs = zip(lines_of(f"{folder}/stdin", part), lines_of(f"{folder}/stdout", part), strict=True)
    for fields, want in pairs:
        # Of refusals the model knows that nothing is to be published, that the clock is out of range, that an export failed,
        # that an edition wasn't reached.
        if set(re.findall(r'"code":(\d+)', "".join(want))) - {"24", "25", "29", "30"}:
            continue
        try:
            have = answer_of(fields)
        except Unknown:
            continue
        if have != want:
            at = next((pair for pair in zip(have, want) if pair[0] != pair[1]), (len(have), len(want)))
            sys.exit(f"checks/press_cases: {program}, {fields[0]}\n  model  {at[0]}\n  stdout {at[1]}")
        compared += 1
    return compared


def main():
    top = sys.argv[1]
    counts = [compare("test_press", "publications", press_answer, top), compare("test_run", None, run_answer, top),
              compare("test_run", None, strange_answer, top)]
    print(f"press cases: {counts[0]} of test_press and {counts[1]} of test_run are as a model of the rules has them, and "
          f"{counts[2]} stores with objects that no press makes")


if __name__ == "__main__":
    main()
