"""The registry as its operator works with it: by the package's programs alone."""
import json
import os
import re
import shutil
import signal
import subprocess
import time

from place import Failed, run
from units import Unit

STORE = "/var/lib/krill"
DATA, SETTINGS = os.path.join(STORE, "krill-data"), "/etc/default/krill"
EXAMPLES = "/usr/share/doc/krill-ca/examples"
REFUSED, NOT_OPENED, DEVICE = 1, 3, 4


class Registry:
    """Signers, servers, and commands with what they come to."""

    def __init__(self):
        self.signers, self.servers = {}, {}
        # What krillc's clock is told to be, for the day before.
        self.clock = {}
        # The origins that were accepted, by authority.
        self.origins = {}
        # Seconds that the last publication took.
        self.took = 1.0

    def krill(self, *words, status=0):
        """A command as root gives it: it runs as the store's user."""
        ran = subprocess.run(["krill", *words], stdin=subprocess.DEVNULL, capture_output=True, text=True, check=False,
                             env={"PATH": "/usr/sbin:/usr/bin:/sbin:/bin", **self.clock})
        if ran.returncode != status:
            raise Failed(f"krill {' '.join(words)}: status {ran.returncode}: {ran.stdout}{ran.stderr}")
        return ran.stdout + ran.stderr

    def update(self, ca, add=(), remove=()):
        """One change of origins, which has to be accepted."""
        words = [word for option, texts in (("--add", add), ("--remove", remove)) for text in texts for word in (option, text)]
        self.krill("roas", "update", "--ca", ca, *words)
        self.origins[ca] = (self.origins.get(ca, set()) - set(remove)) | set(add)

    def publish(self):
        """The hourly service."""
        begun = time.monotonic()
        status, said = Unit("krill-publish").run(**self.clock)
        self.took = time.monotonic() - begun
        return status, said

    def begin_publication(self, part):
        """Starts the service, and waits until that part of the time that the last publication took has gone by."""
        begun, process = time.monotonic(), Unit("krill-publish").start(**self.clock)
        while time.monotonic() < begun + part * self.took and process.poll() is None:
            time.sleep(0.02)
        return begun, process

    def end_publication(self, begun, process):
        """Its status, and what it said."""
        said, _ = process.communicate(timeout=1800)
        if process.returncode == 0:
            self.took = time.monotonic() - begun
        return process.returncode, said

    def must_publish(self):
        """The serial of the edition that it comes to."""
        status, said = self.publish()
        found = re.search(r"^Edition (\d+) of ", said, re.M)
        if status or not found:
            raise Failed(f"krill-publish: status {status}: {said}")
        return int(found.group(1))

    def listed(self):
        """The origins that the store has, by authority, and those that are published: one run of krillc."""
        names = sorted({"ta", *self.origins})
        asked = "".join(json.dumps({"command": "roas list", "ca": name}) + "\n" for name in names)
        rows = {name: reply["origins"] for name, reply in zip(names, self.send(asked), strict=True)}
        held = {name: {it["origin"] for it in found} for name, found in rows.items() if found}
        return held, {it["origin"] for found in rows.values() for it in found if it["state"] == "published"}

    def start_signer(self, number=0):
        status, said = Unit(f"krill-pipes@{number}").run()
        if status:
            raise Failed(f"krill-pipes@{number}: {said}")
        self.signers[number] = Unit(f"krill-signer@{number}").start()

    def kill_signer(self, number=0):
        self.signers[number].kill()
        self.signers[number].wait()

    def stop_signer(self, number=0):
        self.signers[number].terminate()
        self.signers[number].wait()

    def start_unpack(self):
        self.servers["unpack"] = Unit("krill-unpack").start()

    def start_servers(self):
        """nginx and rsyncd with the package's examples, which say where the store is already."""
        shutil.copy(f"{EXAMPLES}/nginx.conf", "/etc/nginx/sites-available/krill")
        for at in os.listdir("/etc/nginx/sites-enabled"):
            os.remove(f"/etc/nginx/sites-enabled/{at}")
        os.symlink("/etc/nginx/sites-available/krill", "/etc/nginx/sites-enabled/krill")
        shutil.copy(f"{EXAMPLES}/rsyncd.conf", "/etc/rsyncd.conf")
        for at in ("/var/log/nginx", "/var/lib/nginx"):
            os.makedirs(at, exist_ok=True)
        for name, words in (("nginx", ["nginx", "-g", "daemon off;"]), ("rsyncd", ["rsync", "--daemon", "--no-detach"])):
            self.servers[name] = subprocess.Popen(words, stdin=subprocess.DEVNULL, stdout=subprocess.DEVNULL, stderr=subprocess.DEVNULL)

    def stop_server(self, name):
        self.servers[name].terminate()
        self.servers.pop(name).wait()

    def wait_for_tree(self, session, serial):
        """Until krill-unpack has come to the edition."""
        for _ in range(300):
            if os.path.basename(os.path.realpath(f"{STORE}/rsync/current")) == f"{session}-{serial}":
                return
            time.sleep(0.1)
        raise Failed(f"krill-unpack didn't come to edition {serial}")

    def kill_krillc_in_publication(self, part):
        """Kills krillc so far into a publication. Whether it was amid one, its status, and what it said."""
        begun, process = self.begin_publication(part)
        children = subprocess.run(["pgrep", "-x", "krillc"], capture_output=True, text=True, check=False).stdout.split()
        for child in children:
            os.kill(int(child), signal.SIGKILL)
        return bool(children), *self.end_publication(begun, process)

    def kill_signer_in_publication(self, part):
        begun, process = self.begin_publication(part)
        is_amid = process.poll() is None
        self.kill_signer()
        # as the unit has it
        time.sleep(1)
        self.start_signer()
        return is_amid, *self.end_publication(begun, process)

    @staticmethod
    def back_up(to):
        """As docs/operations.md has it: the press first, then the desks; then the keys."""
        run("sh", "-ec", f"mkdir -p {to}/krill-data; cd {STORE}; cp -a krill-data/press {to}/krill-data/; "
                         f"cp -a krill-data/desk-* {to}/krill-data/; cp -a /var/lib/krill-signer-0 {to}/keys")

    @staticmethod
    def restore(of, aside):
        run("sh", "-ec", f"mkdir -p {aside}; cd {DATA}; mv press desk-* repo {aside}; cp -a {of}/krill-data/* .")

    def audit(self):
        """krillc audit, as the store's user, with the service's bases."""
        words = "set -a; . /etc/default/krill; krillc audit --rsync $KRILL_RSYNC --rrdp $KRILL_RRDP"
        return json.loads(run("setpriv", "--reuid=krill", "--regid=krill", "--init-groups", "sh", "-ec", words, cwd=STORE))

    def send(self, text):
        """Lines to krillc itself, for what the command line has no words for."""
        words = "set -a; . /etc/default/krill; krillc run --rsync $KRILL_RSYNC --rrdp $KRILL_RRDP"
        ran = subprocess.run(["setpriv", "--reuid=krill", "--regid=krill", "--init-groups", "sh", "-ec", words], cwd=STORE, input=text,
                             capture_output=True, text=True, check=True)
        return [json.loads(line) for line in ran.stdout.splitlines()]

    @staticmethod
    def set_bases():
        """Writes the bases into the settings, and that a signer makes few keys ahead."""
        with open(SETTINGS, encoding="utf-8") as file:
            text = file.read()
        text = re.sub("#(KRILL_RSYNC=rsync|KRILL_RRDP=https)://rpki.my.example", r"\1://rpki.example", text)
        text = text.replace("#KRILL_POOL=1024", "KRILL_POOL=16")
        with open(SETTINGS, "w", encoding="utf-8") as file:
            file.write(text)

    def end(self):
        for process in (*self.servers.values(), *self.signers.values()):
            process.kill()
            process.wait()
        self.servers, self.signers = {}, {}
