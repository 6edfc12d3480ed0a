"""A store, and krillc over it: lines of JSON in, replies out."""
import contextlib
import fcntl
import json
import os
import pwd
import subprocess
import sys
import threading
import time

FOLDER = "krill-data"
REHEARSAL = "signatures are a rehearsal's"
WAITS = "waiting for signer"

# Seconds for which a command waits for other ones over its store.
LONGEST_WAIT = 600

# The statuses of krill.
DONE, REFUSED, USAGE, NOT_OPENED, DEVICE, SPENT, MEMORY = 0, 1, 2, 3, 4, 5, 6

TO_DO = {
    NOT_OPENED: "The store wasn't opened, and nothing was changed. docs/operations.md, 'When something is wrong', has each cause.",
    DEVICE: "Is another krillc running over this store? It has it alone as long as it runs. Else look at the disk, at owners and modes, and at the signers.",
    MEMORY: "Give it more memory, and try again.",
}


class StoreFault(Exception):
    """Why krillc didn't answer all lines, in words, with krill's status."""

    def __init__(self, text, status, replies=()):
        super().__init__(text)
        self.status, self.replies = status, list(replies)


class Store:
    """The store in a folder: the one that krillc is started in, which has `krill-data`."""

    def __init__(self, folder, program, settings=None, wait=LONGEST_WAIT):
        self.folder, self.program, self.settings, self.wait = folder, program, settings or {}, wait

    @property
    def data(self):
        return os.path.join(self.folder, FOLDER)

    def require(self):
        """krillc makes a store where there is none, so that a mistaken folder would go unseen."""
        if not os.path.isdir(self.data):
            raise StoreFault(f"no store in {os.path.abspath(self.folder)}: 'krill init' makes one", NOT_OPENED)

    def ask(self, lines):
        """The replies to the lines, in order, and what krillc said beside them."""
        self.require()
        return self.run(lines)

    def audit(self):
        """What krillc's audit tells of the last edition."""
        self.require()
        (told_of,), _ = self.run([], "audit")
        return told_of

    def run(self, lines, doing="run"):
        text = "".join(json.dumps(line) + "\n" for line in lines)
        try:
            with self.lock():
                code, output, said = talk([self.program, doing, *self.bases()], text.encode(), cwd=self.folder,
                                          env={**os.environ, **self.settings}, **self.owner())
        except OSError as fault:
            raise StoreFault(f"{fault.filename}: {fault.strerror}", DEVICE) from None
        replies = [json.loads(line) for line in output.splitlines() if line.endswith(b"}")]
        if len(replies) < len(lines) or (code and not replies):
            raise StoreFault(told(said, code), status_of(code), replies)
        return replies, said

    def bases(self):
        """The words that name the bases, where they are set."""
        named = (("--rsync", "KRILL_RSYNC"), ("--rrdp", "KRILL_RRDP"))
        return [word for option, key in named if key in self.settings for word in (option, self.settings[key])]

    @contextlib.contextmanager
    def lock(self):
        """Holds the folder: of several commands over one store each waits for the ones before it."""
        folder = os.open(self.folder, os.O_RDONLY | os.O_DIRECTORY)
        try:
            until = time.monotonic() + self.wait
            while not taken(folder):
                if time.monotonic() >= until:
                    raise StoreFault(f"another krill has had {self.folder} for {self.wait} seconds", DEVICE)
                time.sleep(0.1)
            yield
        finally:
            os.close(folder)

    def owner(self):
        """Root goes on as the user whose store it is, so that nothing in it becomes root's."""
        status = os.stat(self.folder)
        if os.geteuid() != 0 or status.st_uid == 0:
            return {}
        user = pwd.getpwuid(status.st_uid)
        return {"user": user.pw_uid, "group": user.pw_gid, "extra_groups": os.getgrouplist(user.pw_name, user.pw_gid)}


def talk(words, text, **how):
    """Runs krillc on the lines. Its status, its output, and its own lines, of which waits are told at once."""
    with subprocess.Popen(words, stdin=subprocess.PIPE, stdout=subprocess.PIPE, stderr=subprocess.PIPE, **how) as process:
        said = []
        threads = [threading.Thread(target=hear, args=(process.stderr, said)), threading.Thread(target=give, args=(process.stdin, text))]
        for it in threads:
            it.start()
        output = process.stdout.read()
        for it in threads:
            it.join()
    return process.returncode, output, said


def hear(stream, said):
    for line in stream:
        line = line.decode(errors="replace").rstrip("\n")
        if WAITS in line:
            print(line, file=sys.stderr, flush=True)
        elif line:
            said.append(line)


def give(stream, text):
    # krillc may end before it has read all
    with contextlib.suppress(BrokenPipeError):
        stream.write(text)
    with contextlib.suppress(BrokenPipeError):
        stream.close()


def taken(folder):
    try:
        fcntl.flock(folder, fcntl.LOCK_EX | fcntl.LOCK_NB)
        return True
    except BlockingIOError:
        return False


def status_of(code):
    return code if code in (USAGE, NOT_OPENED, DEVICE, SPENT, MEMORY) else DEVICE


def told(said, code):
    """krillc's own line, and what to do."""
    lines = [line for line in said if REHEARSAL not in line] or [f"krillc ended with status {code}"]
    return "\n".join(lines + ([TO_DO[code]] if code in TO_DO else []))
