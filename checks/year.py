#!/usr/bin/env python3
"""A tree of twenty authorities, with random commands and a publication each hour. year.py TEST_PRESS HOURS SEED: the program
of cases, which audits each edition and compares each new CRL with a list that it keeps (crates/test_press).

What each edition puts and withdraws, each byte of its set, and how many entries its CRLs have, is told by a model of the
rules (press_model.py)."""
import json
import os
import random
import subprocess
import sys
from editions import origin
from press_model import Press

START, HOUR, AUTHORITIES = 1_767_225_600, 3_600, 20
SEED = bytes(range(32)).hex()


class Story:
    """Commands that are accepted, and what the editions between them come to."""

    def __init__(self, seed):
        self.random, self.tree, self.lines, self.told = random.Random(seed), Press([SEED], bytes(16)), [], []
        self.blocks = {}
        self.origins = {}

    def do(self, **words):
        line = json.dumps(words)
        self.lines.append(line)
        self.tree.take(line)

    def prefix(self, block, longest):
        """One inside the block, by its address and length."""
        address, length = block
        inner = self.random.randint(length, longest)
        return address | self.random.getrandbits(inner - length) << (32 - inner) if inner > length else address, inner

    def begin(self):
        names = ["ta"]
        for number in range(AUTHORITIES - 1):
            name, parent = f"a{number}", self.random.choice(names[-6:])
            above = self.blocks.get(parent)
            self.blocks[name] = self.prefix(above, min(above[1] + 4, 24)) if above else (10 + number % 4 << 24, 8)
            self.origins[name] = []
            names.append(name)
            self.do(command="add", ca=name)
            self.do(command="children add", ca=parent, child=name, resources={"ipv4": text(self.blocks[name])})
            self.do(command="parents add", ca=name, parent=parent)

    def change_origins(self, name):
        held, add, remove = self.origins[name], [], []
        if held and self.random.random() < 0.45:
            remove.append(held.pop(self.random.randrange(len(held))))
        if not remove or self.random.random() < 0.7:
            prefix = self.prefix(self.blocks[name], min(32, self.blocks[name][1] + 8))
            most = f"-{self.random.randint(prefix[1], 32)}" if self.random.random() < 0.3 else ""
            new = f"{text(prefix)}{most} => {self.random.randint(1, 70_000)}"
            if origin(new) not in map(origin, held + remove):
                held.append(new)
                add.append(new)
        self.do(command="roas update", ca=name, add=add, remove=remove)

    def change_grant(self, name, parent, listed):
        words = {"ca": parent, "child": name}
        address, length = self.blocks[name]
        if listed is None:
            self.do(command="children add", **words, resources={"ipv4": text((address, length))})
        elif listed[1]:
            self.do(command="children unsuspend", **words)
        elif (luck := self.random.random()) < 0.08:
            self.do(command="children suspend", **words)
        elif luck < 0.12:
            self.do(command="children remove", **words)
        else:
            smaller = text((address, length + self.random.choice((0, 0, 0, 0, 1, 2))))
            self.do(command="children update", **words, resources={"ipv4": smaller} if luck < 0.97 else {})

    def change(self):
        name = self.random.choice(list(self.blocks))
        one = self.tree.by[name]
        luck = self.random.random()
        if luck < 0.6:
            self.change_origins(name)
        elif luck < 0.8:
            self.change_grant(name, one.parent, self.tree.by[one.parent].children.get(name))
        elif one.begun > one.activated:
            self.do(command="keyroll activate", ca=name)
        else:
            self.do(command="keyroll init", ca=name)

    def hour(self, number):
        for _ in range(self.random.choice((0, 0, 1, 1, 1, 2, 3))):
            self.change()
        clock = START + number * HOUR + self.random.randint(-200, 200)
        before = self.tree.serial
        told = self.tree.publish(clock)
        self.lines.append(f"listed {clock}")
        new = f"{told}, {self.tree.digest()}, {self.tree.entries} entries"
        self.told.append(told if self.tree.serial == before else new)


def text(prefix):
    address, length = prefix
    return ".".join(str(address >> shift & 255) for shift in (24, 16, 8, 0)) + f"/{length}"


def main():
    program, hours, seed = os.path.realpath(sys.argv[1]), int(sys.argv[2]), int(sys.argv[3])
    story = Story(seed)
    story.begin()
    for number in range(hours):
        story.hour(number)
    name = f"{hours} hours of a tree, by the seed {seed}"
    case = "\t".join([name, "Rehearsal", SEED, "", *story.lines])
    done = subprocess.run([program], input=f"# publications\n{case}\n", capture_output=True, text=True)
    heading, _, answer = done.stdout.rstrip("\n").partition("\n")
    got = answer.split("\t")
    if done.returncode or heading != "# publications" or got[:1] != [name]:
        sys.exit(f"checks/year: status {done.returncode}\n{done.stdout[:2000]}{done.stderr[-2000:]}")
    for hour, (have, want) in enumerate(zip(got[1:], story.told)):
        if have != want:
            sys.exit(f"checks/year: hour {hour}\n  got  {have}\n  want {want}")
    if len(got) - 1 != hours:
        sys.exit(f"checks/year: {len(got) - 1} answers in place of {hours}")
    print(f"year: {story.tree.serial} editions of {AUTHORITIES} authorities in {hours} hours, each audited, their CRLs as listed apart")


if __name__ == "__main__":
    main()
