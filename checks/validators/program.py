"""krillc beside its signers, line by line."""
import json, os, subprocess, sys, threading

TOP = os.path.dirname(os.path.dirname(os.path.dirname(os.path.abspath(__file__))))
SIGNER = os.path.join(TOP, "signer", "krill-signer")
# The longest that a session may take, in seconds. A publication of 1,024 origins makes as many keys.
LONGEST = 1800
# The keys that a signer makes ahead: all processors make them, and few are made for nothing.
POOL = "16"


class Failed(Exception):
    """Why a sample can't go on."""


class Program:
    """krillc over the store in a folder of its own, which is empty at first, with so many signers. Its clock
    can be set late, if that is asked."""

    def __init__(self, program, folder, signers, is_late=False):
        self.program, self.folder, self.count, self.is_late = program, folder, signers, is_late
        self.data = os.path.join(folder, "krill-data")
        os.makedirs(self.data, exist_ok=True)
        self.start()

    def start(self):
        """Starts krillc and its signers over what there is."""
        self.signers = [self._start_signer(number) for number in range(self.count)]
        self.krillc = subprocess.Popen(
            [self.program, "run"], cwd=self.folder, stdin=subprocess.PIPE, stdout=subprocess.PIPE, text=True,
            env={**os.environ, **(self._with_clock() if self.is_late else {})})
        self.watch = threading.Timer(LONGEST, self.krillc.kill)
        self.watch.start()

    def _start_signer(self, number):
        """A signer at its FIFOs, which stand before either program starts."""
        path = os.path.join(self.data, f"signer-{number}")
        for end in (".in", ".out"):
            if not os.path.exists(path + end):
                os.mkfifo(path + end, 0o600)
        keys = os.path.join(self.folder, f"keys-{number}")
        words = ["--keys", keys, "--fifos", path, "--one-run", "--pool", POOL]
        return subprocess.Popen([sys.executable, SIGNER, *words])

    def _with_clock(self):
        """What makes krillc's clock one that can be set: checks/clock.c."""
        library = os.path.join(self.folder, "clock.so")
        subprocess.run(["cc", "-shared", "-fPIC", "-o", library, os.path.join(TOP, "checks", "clock.c")], check=True)
        self.set_late(0)
        return {"LD_PRELOAD": library, "CLOCK_FILE": os.path.join(self.folder, "clock")}

    def set_late(self, seconds):
        """Sets krillc's clock late by so many seconds."""
        with open(os.path.join(self.folder, "clock"), "w", encoding="ascii") as file:
            file.write(f"{-seconds}\n")
    def restart(self):
        """Ends krillc and its signers, and starts them over the same store and keys."""
        status = self.close()
        if status:
            raise Failed(f"krillc ended with status {status}")
        self.start()

    @property
    def repository(self):
        """The folder that a web server hands out."""
        return os.path.join(self.data, "repo")

    def ask(self, line):
        """The reply to one line."""
        self.krillc.stdin.write(line + "\n")
        self.krillc.stdin.flush()
        reply = self.krillc.stdout.readline()
        if not reply:
            raise Failed(f"krillc gave no reply to {line[:200]}")
        return json.loads(reply)

    def published_origins(self):
        """The texts of the origins that `roas list` shows as published, over all authorities."""
        listed = self.ask(json.dumps({"command": "list"}))["authorities"]
        origins = set()
        for authority in listed:
            reply = self.ask(json.dumps({"command": "roas list", "ca": authority["name"]}))
            origins |= {row["origin"] for row in reply["origins"] if row["state"] == "published"}
        return origins

    def close(self):
        """Ends the session, and with it the signers. Gives krillc's status."""
        self.krillc.stdin.close()
        status = self.krillc.wait()
        self.watch.cancel()
        for signer in self.signers:
            signer.wait()
        return status

    def kill(self):
        """Ends what still runs. A signer ends by itself once krillc has gone, but for one that it never came to."""
        self.watch.cancel()
        for process in (self.krillc, *self.signers):
            if process.poll() is None:
                process.terminate()
            process.wait()
