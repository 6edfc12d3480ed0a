#!/usr/bin/env python3
"""Rolls the keys of a tree of four levels over, all at once and then one after another, with a publication each hour for
three days. rollovers.py TEST_PRESS: the program of cases, which audits each edition (crates/test_press).

What each edition comes to is told by a model of the rules (editions.py)."""
import json, os, subprocess, sys
from editions import Tree

START, HOUR, HOURS = 1_767_225_600, 3_600, 72
SEED = bytes(range(32)).hex()
# Each authority with its parent and its resources, parents first.
TREE = [("p", "ta", "10.0.0.0/8"), ("q", "p", "10.0.0.0/16"), ("s", "p", "10.1.0.0/16"), ("r", "q", "10.0.0.0/24"),
        ("t", "q", "10.0.1.0/24")]
# What is begun and what is activated, by the hour. First all at once, then one after another.
AT_ONCE, IN_TURN = 1, 29
BEGUN = {AT_ONCE: [name for name, _, _ in TREE], **{IN_TURN + at: [name] for at, (name, _, _) in enumerate(TREE)}}
# They are activated an hour later, and so wait for the day to go by.
ACTIVATED = {hour + 1: names for hour, names in BEGUN.items()}


def command(**words):
    return json.dumps(words)


def steps():
    """The steps of the case, and what is to be printed of each edition."""
    lines, told, tree = [], [], Tree()

    def do(**words):
        lines.append(command(**words))
        tree.take(lines[-1])

    for name, parent, resources in TREE:
        do(command="add", ca=name)
        do(command="children add", ca=parent, child=name, resources={"ipv4": resources})
        do(command="parents add", ca=name, parent=parent)
        do(command="roas update", ca=name, add=[f"{resources} => 64496"])
    for hour in range(HOURS):
        clock = START + hour * HOUR
        for name in BEGUN.get(hour, []):
            do(command="keyroll init", ca=name)
        for name in ACTIVATED.get(hour, []):
            do(command="keyroll activate", ca=name)
        # An origin comes and goes, so that each hour has an edition.
        do(command="roas update", ca="r", **{("add", "remove")[hour % 2]: ["10.0.0.0/25 => 64497"]})
        told.append(tree.publish(clock))
        lines.append(f"count {clock}")
    rolled = {name: tree.by[name].of_role("current")[3] for name, _, _ in TREE}
    if set(rolled.values()) != {2}:
        sys.exit(f"checks/rollovers: the model rolls {rolled}")
    return lines, told


def main():
    program, = map(os.path.realpath, sys.argv[1:])
    lines, told = steps()
    name = "a tree of four levels, rolled over at once and in turn"
    case = "\t".join([name, "Rehearsal", SEED, "", *lines])
    done = subprocess.run([program], input=f"# publications\n{case}\n", capture_output=True, text=True)
    heading, _, answer = done.stdout.rstrip("\n").partition("\n")
    got = answer.split("\t")
    if done.returncode or heading != "# publications" or got[:1] != [name]:
        sys.exit(f"checks/rollovers: status {done.returncode}\n{done.stdout[:2000]}{done.stderr[-2000:]}")
    for at, (have, want) in enumerate(zip(got[1:], told)):
        if have != want:
            sys.exit(f"checks/rollovers: hour {at}\n  got  {have}\n  want {want}")
    if len(got) - 1 != HOURS:
        sys.exit(f"checks/rollovers: {len(got) - 1} editions in place of {HOURS}")
    print(f"rollovers: {HOURS} editions of six authorities in four levels, each audited, as the table of stages has them")


if __name__ == "__main__":
    main()
