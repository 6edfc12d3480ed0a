"""Copies of a store that are taken while the program runs, the press's file first: each opens, and has at least what was
told before it was begun."""
import json, os, random, shutil, subprocess, threading

COPIES = 12


class Writer(threading.Thread):
    """Gives a program commands and publications, one after the other, until it is told to end."""

    def __init__(self, krillc, folder):
        super().__init__(daemon=True)
        self.program = subprocess.Popen([krillc, "run"], cwd=folder, stdin=subprocess.PIPE, stdout=subprocess.PIPE, text=True,
                                        stderr=subprocess.DEVNULL)
        self.ended, self.serial, self.commands, self.wrong = False, 0, 0, None

    def ask(self, line):
        self.program.stdin.write(json.dumps(line) + "\n")
        self.program.stdin.flush()
        return json.loads(self.program.stdout.readline())

    def run(self):
        while not self.ended and self.wrong is None:
            number = self.commands
            change = {"add": [f"10.{number // 256}.{number % 256}.0/24 => 1"]}
            reply = self.ask({"command": "roas update", "ca": "ta", **change})
            self.commands = reply.get("count", 0)
            published = self.ask({"command": "publish"})
            self.serial = published.get("serial", 0)
            if not self.commands or not self.serial:
                self.wrong = f"{reply} and {published}"

    def end(self):
        self.ended = True
        self.join()
        self.program.stdin.close()
        self.program.wait()


def copy_of(data, to, names):
    os.makedirs(to)
    for name in names:
        shutil.copy(os.path.join(data, name), to)


def audited(krillc, folder):
    return subprocess.run([krillc, "audit"], cwd=folder, capture_output=True, text=True)


def try_copies(krillc, folder):
    """What is wrong with a copy, or how many were tried and how many editions the last one has."""
    data = os.path.join(folder, "krill-data")
    os.makedirs(folder)
    writer = Writer(krillc, folder)
    writer.start()
    try:
        for number in range(COPIES):
            until = writer.serial + random.randrange(3)
            while writer.serial < until and writer.wrong is None:
                pass
            place = os.path.join(folder, f"copy-{number}")
            told = writer.serial
            names = sorted(it for it in os.listdir(data) if it.startswith("desk-"))
            copy_of(data, os.path.join(place, "krill-data"), ["press", *names])
            done = audited(krillc, place)
            if done.returncode:
                return f"a copy is refused: {done.stderr}", None
            found = json.loads(done.stdout)["serial"]
            if found < told:
                return f"a copy behind serial {told} has {found}", None
    finally:
        writer.end()
    return writer.wrong, f"{COPIES} copies taken meanwhile, the last one with {found} editions"
