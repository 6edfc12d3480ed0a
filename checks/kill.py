"""Kills the built program between and within commands and publications, and starts it again over the same files.

Each turn sends lines without waiting and kills the program, after a random number of replies or after a random
time. The next start is asked for its names and for the history of each: every authority has to have its
acknowledged commands, in their order, and behind them at most one command in the whole tree whose reply nobody
heard. The first turns have one authority, then there are more and more of them, up to 64. The serial has to be the
latest one that was acknowledged, or its successor where the reply to a publication wasn't heard; `audit` has to tell
it, and each start audits what stands. After some kills a start has to publish what is there. Then the files of two runs over the same lines are
compared.

With a SIGNER that program keeps the keys beside the store all the while, of up to 8 authorities, and openssl judges what is
published at the end: each object of it, and that they yield just the anchor's origins.
Usage: kill.py PROGRAM KILLS [SIGNER], KILLS being how many turns there are at least."""
import json, os, random, subprocess, sys, tempfile, time

KRILLC = os.path.abspath(sys.argv[1])
TURNS, ALONE = int(sys.argv[2]), 10
SIGNER = os.path.abspath(sys.argv[3]) if len(sys.argv) > 3 else None
MOST_NAMES = 8 if SIGNER else 64
# The longest time after which a start is killed, in seconds. A signer's part of a publication takes some.
LONGEST = 1.0 if SIGNER else 0.1
# So many turns lie between two starts that publish.
PUBLISHED_EACH = 5
PUBLISH = {"command": "publish"}
random.seed(int(os.environ.get("SEED", 7)))


def text(line):
    return json.dumps(line, separators=(",", ":")) + "\n"


def update(name, number):
    """Each number adds another origin."""
    origin = f"10.{number // 256}.{number % 256}.0/24 => 1"
    return {"command": "roas update", "ca": name, "add": [origin], "remove": []}


def grant(name, child, number):
    resources = {"asn": f"AS{number}", "ipv4": f"10.{number // 256}.{number % 256}.0/24", "ipv6": ""}
    return {"command": "children add", "ca": name, "child": child, "resources": resources}


def desk_of(line):
    return "ta" if line["command"] == "add" else line["ca"]


class Lines:
    """New lines that are accepted after those that the histories have, whatever was lost in between."""

    def __init__(self):
        self.number = 0

    def take(self, histories, turn):
        lines, room = [], MOST_NAMES - len(histories) if turn >= ALONE else 0
        for _ in range(30):
            self.number += 1
            if self.number % 13 == 0:
                lines.append(PUBLISH)
            lines.append(self.next(list(histories), room > 0))
            room -= lines[-1]["command"] == "add"
        return lines

    def next(self, names, has_room):
        if has_room and self.number % 3 == 0:
            return {"command": "add", "ca": f"a{self.number}", "signer": 0}
        name = random.choice(names)
        if self.number % 20 == 7:
            return grant(name, f"c{self.number}", self.number)
        return update(name, self.number)


def start(folder):
    return subprocess.Popen([KRILLC, "run"], cwd=folder, stdin=subprocess.PIPE, stdout=subprocess.PIPE)


def ask(folder, lines):
    """The replies of a new start."""
    run = subprocess.run([KRILLC, "run"], cwd=folder, input="".join(map(text, lines)).encode(), capture_output=True)
    if run.returncode != 0:
        sys.exit(f"checks/kill: a start after a kill ended with status {run.returncode}: {run.stderr.decode()}")
    return [json.loads(reply) for reply in run.stdout.decode().splitlines()]


def histories_found(folder):
    """For each name, in the order of the names, the lines of its accepted commands."""
    names = [row["name"] for row in ask(folder, [{"command": "list"}])[0]["authorities"]]
    found = {}
    for name, reply in zip(names, ask(folder, [{"command": "history commands", "ca": name} for name in names])):
        if [row["count"] for row in reply["commands"]] != list(range(1, len(reply["commands"]) + 1)):
            sys.exit(f"checks/kill: the history of {name} isn't counted from 1")
        found[name] = [row["line"] for row in reply["commands"]]
    return found


def killed_turn(folder, lines):
    """Sends the lines without waiting, and kills. Gives the replies that were heard whole."""
    program = start(folder)
    program.stdin.write("".join(map(text, lines)).encode())
    program.stdin.flush()
    heard = []
    if random.randrange(2):
        heard += [program.stdout.readline() for _ in range(random.randrange(12))]
    else:
        time.sleep(random.random() * LONGEST)
    program.kill()
    heard += program.stdout.read().splitlines(keepends=True)
    program.wait()
    return [json.loads(reply) for reply in heard if reply.endswith(b"\n")]


def with_line(histories, line):
    """The histories with one accepted line more."""
    if line == PUBLISH:
        return histories
    more = {**histories, desk_of(line): histories[desk_of(line)] + [line]}
    return {**more, line["ca"]: []} if line["command"] == "add" else more


def acknowledged(histories, lines, replies):
    """The histories with the lines whose replies were heard, each of which has to accept its line."""
    for line, reply in zip(lines, replies):
        if line == PUBLISH:
            if reply["reply" if "reply" in reply else "refused"] not in ("published", "Nothing"):
                sys.exit(f"checks/kill: {reply} to {line}")
            continue
        histories, desk = with_line(histories, line), desk_of(line)
        if reply != {"authority": desk, "count": len(histories[desk]), "reply": "accepted"}:
            sys.exit(f"checks/kill: {reply} to {line}")
    return histories


def is_same_or_one_more(known, found, unheard):
    """Whether the histories are the same, or those with the first command that nobody heard a reply to."""
    unheard = [line for line in unheard if line != PUBLISH]
    return found == known or bool(unheard) and found == with_line(known, unheard[0])


def nothing_behind(serial):
    return {"code": 24, "detail": str(serial), "refused": "Nothing"}


def serial_acknowledged(serial, replies):
    """The latest serial, where each publication was the next one or had nothing to do."""
    for reply in replies:
        if reply.get("reply") == "published":
            if reply["serial"] != serial + 1:
                sys.exit(f"checks/kill: {reply} behind the serial {serial}")
            serial += 1
        elif reply.get("refused") == "Nothing" and reply != nothing_behind(serial):
            sys.exit(f"checks/kill: {reply} behind the serial {serial}")
    return serial


def serial_audited(folder):
    """The serial that an audit tells."""
    done = subprocess.run([KRILLC, "audit"], cwd=folder, stdin=subprocess.DEVNULL, capture_output=True)
    if done.returncode != 0:
        sys.exit(f"checks/kill: an audit after a kill ended with status {done.returncode}: {done.stderr.decode()}")
    return json.loads(done.stdout)["serial"]


def serial_found(folder, serial, unheard):
    """The serial after a kill: that which was acknowledged, or the next one where a publication wasn't heard."""
    audited, found = serial_audited(folder), ask(folder, [{"command": "serial"}])[0]["serial"]
    if audited != found:
        sys.exit(f"checks/kill: an audit after a kill tells the serial {audited}, and the next run {found}")
    if found != serial and (PUBLISH not in unheard or found != serial + 1):
        sys.exit(f"checks/kill: the serial {found} after {serial} was acknowledged")
    return found


def publishes_next(folder, serial):
    """A start publishes what is there, once."""
    published, again, after = ask(folder, [PUBLISH, PUBLISH, {"command": "serial"}])
    if published != nothing_behind(serial):
        serial = serial_acknowledged(serial, [published])
    if again != nothing_behind(serial) or after != {"reply": "serial", "serial": serial}:
        sys.exit(f"checks/kill: {published}, {again} and {after} after a kill")
    return serial


def kills(folder):
    """Gives how many kills there were, how many editions, and the histories at the end."""
    histories, lines, cut, turn, serial = {"ta": []}, Lines(), 0, 0, 0
    # on a machine that is busy a turn gets less done, and it takes more of them until all authorities are there
    while turn < TURNS or len(histories) < MOST_NAMES and turn < 10 * TURNS:
        sent = lines.take(histories, turn)
        replies = killed_turn(folder, sent)
        known = acknowledged(histories, sent, replies)
        serial = serial_found(folder, serial_acknowledged(serial, replies), sent[len(replies):])
        found = histories_found(folder)
        if list(found)[:len(known)] != list(known) or not is_same_or_one_more(known, found, sent[len(replies):]):
            sys.exit(f"checks/kill: turn {turn}: other histories than those of {len(replies)} replies")
        cut += len(replies) < len(sent)
        histories = found
        if turn % PUBLISHED_EACH == 0:
            serial = publishes_next(folder, serial)
        turn += 1
    if len(histories) != MOST_NAMES or cut < TURNS / 4:
        sys.exit(f"checks/kill: {len(histories)} authorities, and {cut} turns cut short")
    return turn, cut, serial, histories


def start_signer(folder):
    """Starts the signer beside the store, whose pipes have to stand before krillc starts."""
    path = os.path.join(folder, "krill-data", "signer-0")
    os.makedirs(os.path.dirname(path))
    for end in (".in", ".out"):
        os.mkfifo(path + end, 0o600)
    return subprocess.Popen([sys.executable, SIGNER, "--keys", os.path.join(folder, "keys"), "--pool", "4", "--fifos", path])


def judge(folder, histories):
    """Publishes once more, lets openssl judge every object, and gives how many these are. The anchor alone holds
    something."""
    sys.dont_write_bytecode = True
    sys.path.append(os.path.join(os.path.dirname(os.path.abspath(__file__)), "validators"))
    import by_openssl, parties, repository

    last = update("ta", 0)
    _, published = ask(folder, [last, PUBLISH])
    if published.get("reply") != "published":
        sys.exit(f"checks/kill: the last edition: {published}")
    exported = repository.read_exported(os.path.join(folder, "krill-data", "repo"))
    found = by_openssl.look(exported, os.path.join(folder, "judged"), published["moment"])
    origins = {origin for line in [*histories["ta"], last] for origin in line.get("add", [])}
    if found.complaints or found.payloads != {*map(parties.payload_of_origin, origins)}:
        wrong = f"{len(found.payloads)} of {len(origins)} origins and {found.complaints[:3]}"
        sys.exit(f"checks/kill: openssl has of the last edition {wrong}")
    return len(exported.objects)


def kills_beside_signer(folder):
    signer = start_signer(folder)
    try:
        *counts, histories = kills(folder)
        return *counts, f", with a signer, and {judge(folder, histories)} objects at the end that openssl takes"
    finally:
        signer.kill()
        signer.wait()


def files_of(lines):
    """What the store's files have after the lines, given in two runs."""
    with tempfile.TemporaryDirectory(dir=".") as folder:
        half = len(lines) // 2
        for part in (lines[:half], lines[half:]):
            ask(folder, part)
        store = os.path.join(folder, "krill-data")
        files = {}
        # Each store of what was published has a session of its own.
        for name in sorted(set(os.listdir(store)) - {"press"}):
            with open(os.path.join(store, name), "rb") as file:
                files[name] = file.read()
        return files


def main():
    with tempfile.TemporaryDirectory(dir=".") as folder:
        turns, cut, serial, beside = kills_beside_signer(folder) if SIGNER else (*kills(folder)[:3], "")
    lines = [{"command": "add", "ca": "a1", "signer": 0}]
    lines += [update(("ta", "a1")[number % 2], number) for number in range(20)]
    lines += [dict(line, add=[], remove=line["add"]) for line in lines[1:7]]
    if files_of(lines) != files_of(lines):
        sys.exit("checks/kill: two runs over the same lines left different files")
    print(f"checks/kill: ok, {turns} kills, {cut} of them before all was answered, {serial} editions{beside}")


main()
