"""krillc beside signers: what is no pipe, strangers, who hangs, who stood still, and who ends while krillc opens."""
import os, signal, threading, time

from krillc import WAITING, Daemon, Store, holds_pipes, make_pipes, play_signer
from parts import await_that, fail, kill, start, want
from played import Keeper

# Within how many seconds krillc answers, or says what it waits for.
BOUND = 60


def pipes_of_krillc():
    """What krillc says of pipes that it can't use, and of none at all."""
    os.makedirs("krillc-pipes/krill-data")
    pipe = "krillc-pipes/krill-data/signer-"
    Daemon("krillc-pipes").ended(0, "signatures are a rehearsal's")
    os.mkfifo(pipe + "0.in")
    Daemon("krillc-pipes").ended(4, "signer-0.out is missing")
    for make in (
        lambda path: open(path, "w").close(),
        lambda path: os.symlink("signer-0.in", path),
        lambda path: os.symlink("x", path),
        os.mkdir,
    ):
        make(pipe + "0.out")
        Daemon("krillc-pipes").ended(4, "signer-0.out: no FIFO")
        (os.rmdir if make is os.mkdir else os.unlink)(pipe + "0.out")
    os.rename(pipe + "0.in", pipe + "1.in")
    Daemon("krillc-pipes").ended(4, "signer-1.out is missing")
    os.mkfifo(pipe + "1.out")
    Daemon("krillc-pipes").ended(4, "signer-0.in is missing: there is a signer of a greater number")
    make_pipes(pipe + "0")
    for end_of_it in (".in", ".out"):
        os.rename(f"{pipe}1{end_of_it}", f"{pipe}2{end_of_it}")
    Daemon("krillc-pipes").ended(4, "signer-1.in is missing: there is a signer of a greater number")
    for end_of_it in (".in", ".out"):
        os.unlink(f"{pipe}2{end_of_it}")
    waiting = Daemon("krillc-pipes")
    want(WAITING, waiting.said())
    with open(pipe + "0.in", "w"), open(pipe + "0.out"):
        pass  # A signer that ends without a word.
    waiting.ended(4, "signer 0 gave no answer to `hello`")


HELLOS = b"hello " + b"5" * 32 + b"\n"


def strangers():
    """A signer that doesn't know hellos is refused by its number as soon as it has answered both; one that says nothing
    is told of; and what an earlier run left of an answer isn't taken for a stranger's."""
    path = "strangers/krill-data/signer-0"
    make_pipes(path)
    for first, reply in (
        (b"", lambda line: b"what?\n"),
        (b"", lambda line: b"\n"),
        (b"", lambda line: b"x" * 1059),
        (b"", lambda line: line[:-1] + b"!" + line[:5] + b"\n\nno\n"),
        (b"done\n", lambda line: b"error: " + line[:5] + b"\n"),
        (b"ready\nwelcome\n", lambda line: line),
    ):
        player = play_signer(path, first, reply)
        Daemon("strangers").ended(4, "krillc: signer 0 answers no `hello`")
        player.join()
    for first in (b"", b"yes\n", b"0001\n" + HELLOS, b"0001", HELLOS + b"nobody\n"):
        player = play_signer(path, first, lambda line: line)
        Daemon("strangers").ended(0)
        player.join()
    for first, reply in ((b"", lambda line: b""), (b"", lambda line: HELLOS), (b"what?\n", lambda line: b"")):
        player = play_signer(path, first, reply)
        daemon = Daemon("strangers")
        want(WAITING, daemon.said())
        kill(daemon.program)
        player.join()


def refused_by_signer(reply, number=0):
    return reply.get("refused") == "SignerFault" and reply["detail"] == str(number)


def endless():
    """A line without an end is a fault as soon as it is longer than any answer. Once a signer is in that one's place, the
    next publication is right."""
    path = "endless/krill-data/signer-0"
    make_pipes(path)
    player = play_signer(path, b"", lambda line: line if line.startswith(b"hello ") else b"7" * 1059)
    daemon = Daemon("endless")
    daemon.ask(command="roas update", ca="ta", add=["10.0.0.0/16-24 => 64496"])
    if not refused_by_signer(daemon.ask(command="publish")):
        fail("a line without an end is no fault")
    kill(daemon.program)
    player.join()
    signer, daemon = start("endless-keys", "--fifos", path), Daemon("endless")
    if daemon.ask(command="publish").get("reply") != "published":
        fail("nothing is published behind a line without an end")
    kill(daemon.program)
    kill(signer)


def hangs(store):
    """A signer that hangs in a publication is told of after a second, and once; when it goes on the publication does.
    Nothing is told while nobody waits."""
    daemon, signer = store.daemon, store.signers[0].program
    store.publish({"ta": {"10.0.0.0/16 => 64496"}})
    store.update({"ta": {"10.1.0.0/16 => 64496"}})
    signer.send_signal(signal.SIGSTOP)
    daemon.forget_said()
    began = time.monotonic()
    daemon.send(command="publish")
    want(WAITING, daemon.said())
    took = time.monotonic() - began
    if took < 0.9:
        fail(f"a wait is told after {took} seconds")
    if not daemon.says_nothing(2.5):
        fail("a wait is told twice")
    signer.send_signal(signal.SIGCONT)
    reply = daemon.reply()
    if reply.get("reply") != "published":
        fail(f"a publication where the signer goes on: {reply}")
    store.serial = reply["serial"]
    daemon.forget_said()
    if not daemon.says_nothing(1.5):
        fail("a wait is told where there is none")


def ends_within_an_opening(store):
    """krillc asks its signers at its start, too. Where one ends then, krillc ends with status 4, and the next one goes
    on."""
    store.daemon.ended(0)
    (signer,) = store.signers
    kill(signer.program)
    keeper, asked = Keeper(signer.keys), []

    def reply(line):
        asked.append(line.split()[0])
        return None if asked[-1] == b"check" else keeper.answer(line)

    player = play_signer(signer.path, b"", reply)
    store.start_daemon()
    store.daemon.ended(4, "krillc: device failed")
    player.join()
    if asked != [b"hello", b"hello", b"check"]:
        fail(f"an opening asks {asked}")
    keeper.end()
    signer.start()
    store.start_daemon()
    store.find()
    store.publish({"ta": {"10.0.0.0/16 => 64496"}})
    store.end()


def is_stopped(program):
    """Whether all of its threads stand still."""
    try:
        states = [read_state(program, task) for task in os.listdir(f"/proc/{program.pid}/task")]
    except FileNotFoundError:
        return False  # A thread that has ended meanwhile.
    return set(states) == {"T"}


def read_state(program, task):
    with open(f"/proc/{program.pid}/task/{task}/stat") as file:
        return file.read().rpartition(")")[2].split()[0]


def stands_still():
    """Where krillc stood still while the signer that it had asked was killed and started again, it may miss that. Then it
    says what it waits for, and answers once the signer is killed again; and the next publication is right. Gives
    whether it missed it."""
    path = "still/krill-data/signer-0"
    make_pipes(path)
    asked, stopped = threading.Event(), threading.Event()

    def reply(line):
        if line.startswith(b"hello "):
            return line
        asked.set()
        stopped.wait()
        return None

    player = play_signer(path, b"", reply)
    daemon = Daemon("still")
    daemon.ask(command="roas update", ca="ta", add=["10.0.0.0/16 => 64496"])
    daemon.forget_said()
    daemon.send(command="publish")
    if not asked.wait(BOUND):
        fail("a publication asks nothing")
    daemon.program.send_signal(signal.SIGSTOP)
    await_that(lambda: is_stopped(daemon.program), "a stop of krillc")
    stopped.set()
    player.join()
    signer = start_signer("still-keys", path)
    daemon.program.send_signal(signal.SIGCONT)
    missed = not daemon.replies_within(2.5)
    if missed:
        if daemon.says_nothing(BOUND):
            fail("a krillc that waits says nothing")
        want(WAITING, daemon.said())
        kill(signer)
        signer = start_signer("still-keys", path)
        if not daemon.replies_within(BOUND):
            fail("nothing is answered where a signer is killed again")
    if not refused_by_signer(daemon.reply()):
        fail("what a signer was asked that was killed is no fault")
    if daemon.ask(command="publish").get("reply") != "published":
        fail("nothing is published behind a signer that was killed while krillc stood still")
    kill(daemon.program)
    kill(signer)
    return missed


def start_signer(folder, path):
    """Starts a signer at pipes that krillc has opened, and waits for it."""
    program = start(folder, "--fifos", path)
    await_that(lambda: holds_pipes(program, path), "a signer's start")
    return program


def try_all():
    """Tries all of it. Gives what is to be said of it."""
    pipes_of_krillc()
    strangers()
    endless()
    store = Store("hangs")
    hangs(store)
    ends_within_an_opening(store)
    return "one that stood still missed its signer's end" if stands_still() else "it missed no signer's end"
