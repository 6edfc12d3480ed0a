"""A day in a registry, as its operator lives it: from the package krill-ca alone, over nginx and rsyncd, to a router.

python3 checks/day PACKAGE, as root. Everything goes on in namespaces and over a copy of the machine's files, which end with
it. Behind each step that hands something out, rpki-client, FORT and OctoRPKI by RRDP, rpki-client by rsync alone, and a BIRD
that stayrtr tells have to have exactly the origins that `krill roas list` shows as published, which are the accepted ones
that are certified; and the router has to have kept what RFC 6811 lets through, and nothing else."""
import os
import random
import shutil
import subprocess
import sys
import time

# The folder stays as it is.
sys.dont_write_bytecode = True

import looks
import loopback
import place
import registry
import router
from place import PLAYER, Failed
from registry import DATA, DEVICE, NOT_OPENED, REFUSED, STORE

WORK = "/tmp/day"
LISTED = f"{WORK}/listed.json"
# Seconds: a day, and some more, in which the new key grows old enough.
DAY_BEFORE = 90000
DISK, FULL = "64m", f"{STORE}/filler"
# How often a kill may miss the publication.
TRIES = 12
IMPORTED = "prefix,length,asn\n10.1.0.0/16,20,AS64496\n198.51.100.0/24,,64496\n2001:db8::/32,48,AS64496\n"


class Day:
    def __init__(self, package):
        self.package, self.registry, self.router = package, registry.Registry(), None
        self.wrong, self.steps, self.begun = [], 0, time.monotonic()
        # What was found last to be published.
        self.wanted = set()

    def tell(self, text, wrong=()):
        """One step's line, and what was wrong with it."""
        self.steps += 1
        print(f"checks/day: {time.monotonic() - self.begun:5.0f} s  {text}{': WRONG' if wrong else ''}", flush=True)
        for line in wrong:
            print(f"    {line}", flush=True)
        self.wrong += wrong

    def look(self, text, pending=frozenset()):
        """Validators and router, over what the store says is published: all that was accepted, but for what is pending."""
        held, published = self.registry.listed()
        accepted, wrong = set().union(*self.registry.origins.values()), []
        if held != self.registry.origins:
            wrong.append(f"the store has {held}, accepted was {self.registry.origins}")
        if published != accepted - pending:
            wrong.append(f"published is {sorted(published)}, accepted was {sorted(accepted)}")
        self.wanted = looks.payloads_of(published)
        return self.look_at_what_stands(text, wrong)

    def look_at_what_stands(self, text, wrong):
        """Validators and router, over what was found last to be published."""
        wanted, wrong = self.wanted, [*wrong]
        exported = looks.repository.read_exported(looks.REPOSITORY)
        self.registry.wait_for_tree(exported.session, exported.serial)
        for name, found in looks.looks(WORK, LISTED).items():
            wrong += [f"{name}: {line}" for line in found.complaints]
            if found.payloads != wanted:
                wrong.append(f"{name}: found {sorted(found.payloads)}, wanted {sorted(wanted)}")
        wrong += self.router.waits_for(wanted)
        kept = ", ".join(f"{prefix} of {origin}" for prefix, origin in sorted(self.router.routes()) if prefix.startswith("192.0.2."))
        self.tell(f"{text}: edition {exported.serial}, {len(wanted)} origins; the router keeps {kept}", wrong)
        return exported.serial

    def expect(self, text, is_so, told=""):
        self.tell(text, [] if is_so else [f"it isn't so: {told}"])

    # The steps, in their order.

    def install(self):
        place.run("dpkg", "--force-unsafe-io", "--no-triggers", "-i", self.package, env={**os.environ, "DEBIAN_FRONTEND": "noninteractive"})
        self.registry.set_bases()
        place.resize_disk(DISK)
        self.tell(f"installed {os.path.basename(self.package)}; a disk of {DISK} for the store")

    def set_up_world(self):
        loopback.set_up(f"{WORK}/network")
        for name, to in (("server.pem", f"{WORK}/network/certs/rpki.example.pem"), ("server.key", "/etc/ssl/private/rpki.example.key")):
            shutil.copy(f"{WORK}/network/{name}", to)
        self.registry.start_signer()
        self.registry.start_servers()
        self.registry.start_unpack()
        self.router = router.start(f"{WORK}/routers", LISTED)
        self.tell("a signer, nginx, rsyncd and krill-unpack run; stayrtr, a router and two neighbours")

    def refuse_early(self):
        """Without a signer the service publishes nothing."""
        try:
            self.registry.publish()
            self.expect("without a signer nothing is published", False, "krill-publish ran")
        except OSError as fault:
            self.expect("without a signer nothing is published", "signer-0.in" in str(fault), str(fault))

    def day_before(self):
        """A tree, its first edition, and a new key: with krillc's clock a day and an hour behind, and nobody looking."""
        library = f"{WORK}/clock.so"
        place.run("cc", "-shared", "-fPIC", "-o", library, os.path.join(looks.TOP, "checks", "clock.c"))
        loopback.write_text(f"{WORK}/clock", f"{-DAY_BEFORE}\n")
        os.chmod(WORK, 0o755)
        krill = self.registry.krill
        self.registry.clock = {"LD_PRELOAD": library, "CLOCK_FILE": f"{WORK}/clock"}
        krill("add", "--ca", "isp")
        krill("children", "add", "--ca", "ta", "--child", "isp", "--asn", "AS64496-AS64511", "--ipv4", "10.0.0.0/8,192.0.2.0/24,198.51.100.0/24",
              "--ipv6", "2001:db8::/32")
        krill("parents", "add", "--ca", "isp", "--parent", "ta")
        self.registry.update("isp", ["192.0.2.0/24 => 64496"])
        self.registry.must_publish()
        krill("keyroll", "init", "--ca", "isp")
        self.registry.must_publish()
        shown = krill("show", "--ca", "isp")
        self.registry.clock = {}
        self.expect("the day before: a tree, its first edition, and a new key that waits for its day", "staged" in shown, shown)

    def morning(self):
        serial = self.registry.must_publish()
        self.expect("the hourly service takes over", serial == 3, serial)
        self.look("validated, handed on, and the false announcement is dropped")

    def import_origins(self):
        path = f"{WORK}/origins.csv"
        loopback.write_text(path, IMPORTED)
        self.registry.krill("roas", "import", "--ca", "isp", "--yes", path)
        self.registry.origins["isp"] |= {"10.1.0.0/16-20 => 64496", "198.51.100.0/24 => 64496", "2001:db8::/32-48 => 64496"}
        self.registry.must_publish()
        self.look("origins imported")

    def nothing_new(self):
        status, said = self.registry.publish()
        self.expect("an hour without a change: nothing to publish", status == 0 and "Nothing" in said, said)

    def roll_key(self):
        self.registry.krill("keyroll", "activate", "--ca", "isp")
        self.registry.must_publish()
        self.expect("the new key is told to take over", "retiring" in self.registry.krill("show", "--ca", "isp"))
        self.look("the key was rolled")
        self.registry.must_publish()
        self.expect("the old key is withdrawn", "steady" in self.registry.krill("show", "--ca", "isp"))
        self.look("behind the roll")

    def until_amid(self, what, kill, add):
        """Publishes changes, each with a kill, until one comes amid a publication. Ends with a good publication."""
        for number in range(TRIES):
            texts = [f"10.{add}.{number}.{at}/26 => 64496" for at in (0, 64, 128, 192)]
            self.registry.update("isp", texts)
            is_amid, status, said = kill(random.uniform(0.3, 1))
            if is_amid and status:
                return status, said
        raise Failed(f"{what}: no kill came amid a publication in {TRIES} tries")

    def kill_signer(self):
        status, said = self.until_amid("a signer", self.registry.kill_signer_in_publication, 11)
        self.expect("a signer is killed amid a publication: it is refused", status in (REFUSED, DEVICE), said)
        self.registry.must_publish()
        self.look("the signer runs again, and the next publication is well")

    def kill_krillc(self):
        status, said = self.until_amid("krillc", self.registry.kill_krillc_in_publication, 12)
        self.expect("krillc is killed amid a publication", status == DEVICE, said)
        status, said = self.registry.publish()
        self.expect("the next one is well", status == 0, said)
        self.look("nothing was lost")

    def fill_disk(self):
        before = looks.serial()
        subprocess.run(["dd", "if=/dev/zero", f"of={FULL}", "bs=4k"], capture_output=True, check=False)
        words = ["roas", "update", "--ca", "isp", "--add", "10.13.0.0/24 => 64496"]
        ran = subprocess.run(["krill", *words], capture_output=True, text=True, check=False)
        self.expect("the disk is full: a command is refused", ran.returncode in (REFUSED, DEVICE), ran.stdout + ran.stderr)
        status, said = self.registry.publish()
        self.expect("and so is a publication, while the last edition stands", status in (REFUSED, DEVICE) and looks.serial() == before, said)
        self.look_at_what_stands("the disk is full", [])
        os.remove(FULL)
        held, _ = self.registry.listed()
        # of a command that got DiskFault all or nothing is found
        in_doubt = held["isp"] & {"10.13.0.0/24 => 64496"}
        self.registry.origins["isp"] |= in_doubt
        self.look("there is room again, nothing was lost", in_doubt)
        if not in_doubt:
            self.registry.update("isp", ["10.13.0.0/24 => 64496"])
        self.registry.must_publish()
        self.look("and the command is taken")

    def restore(self):
        """A backup, editions behind it that everybody sees, and a desk that is spoiled."""
        backup, aside = f"{WORK}/backup", f"{WORK}/aside"
        self.registry.back_up(backup)
        lost = ["10.14.0.0/24 => 64496", "10.15.0.0/24 => 64496"]
        for text in lost:
            self.registry.update("isp", [text])
            self.registry.must_publish()
        last = self.look("editions behind the backup")
        with open(f"{DATA}/desk-01", "r+b") as file:
            # The length of its first record: docs/journal.md.
            file.seek(17)
            file.write(b"\xff")
        said = self.registry.krill("list", status=NOT_OPENED)
        self.expect("a desk is damaged: the store is refused", "Damaged device 1" in said, said)
        for name in ("nginx", "rsyncd", "unpack"):
            self.registry.stop_server(name)
        self.registry.stop_signer()
        self.registry.restore(backup, aside)
        self.registry.start_signer()
        found = self.registry.audit()
        self.expect("the backup is put in its place, and opens", found["serial"] < last, found)
        self.give_again(lost, last, f"{aside}/repo")
        self.registry.start_servers()
        self.registry.start_unpack()
        time.sleep(2)
        self.look("restored, the lost commands given again, serial and points above the lost ones")

    def give_again(self, lost, last, seen):
        """As docs/operations.md has it: editions up to the last serial, the lost commands, new keys below the anchor."""
        krill = self.registry.krill
        while looks.serial() < last:
            self.registry.send('{"command":"roas update","ca":"ta"}\n{"command":"publish"}\n')
        self.registry.update("isp", lost)
        self.registry.must_publish()
        said = krill("points", "--not-above", seen)
        self.expect("the lost commands alone leave isp's manifest where relying parties were", "/isp/" in said, said)
        for word in ("suspend", "unsuspend"):
            krill("children", word, "--ca", "ta", "--child", "isp")
            self.registry.must_publish()
        said = krill("points", "--not-above", seen)
        self.expect("with a new key of isp no manifest is at or below one that was seen", said == "", said)

    def withdraw(self):
        """The origin goes, and the false announcement comes back as one of which nothing is known."""
        self.registry.update("isp", ["192.0.2.0/24 => 64511"], ["192.0.2.0/24 => 64496"])
        self.registry.must_publish()
        self.look("the prefix goes over to the other network")

    def remove(self):
        place.run("dpkg", "--no-triggers", "--remove", "krill-ca")
        place.run("dpkg", "--no-triggers", "--purge", "krill-ca", env={**os.environ, "DEBIAN_FRONTEND": "noninteractive"})
        stands = [os.path.exists(it) for it in (f"{DATA}/press", "/var/lib/krill-signer-0", "/usr/bin/krillc")]
        self.expect("purged: the store and the keys stand, the programs don't", stands == [True, True, False], stands)
        last = looks.serial()
        place.run("dpkg", "--force-unsafe-io", "--no-triggers", "-i", self.package, env={**os.environ, "DEBIAN_FRONTEND": "noninteractive"})
        self.registry.set_bases()
        self.registry.start_signer()
        found = self.registry.audit()
        self.expect("installed again: the store opens with its last edition", found["serial"] == last, found)
        self.registry.end()

    def play(self):
        os.makedirs(WORK)
        self.install()
        self.refuse_early()
        self.set_up_world()
        for step in (self.day_before, self.morning, self.import_origins, self.nothing_new, self.roll_key, self.kill_signer,
                     self.kill_krillc, self.fill_disk, self.restore, self.withdraw):
            step()
        self.registry.end()
        self.remove()
        print(f"checks/day: {'FAILED' if self.wrong else 'ok'}, {self.steps} steps in {time.monotonic() - self.begun:.0f} s", flush=True)


def main(words):
    if PLAYER not in words:
        place.in_namespaces([sys.executable, os.path.realpath(os.path.dirname(__file__)), PLAYER, *words])
    package = os.path.realpath(words[-1])
    place.enter_copy(package)
    day = Day(f"/run/{os.path.basename(package)}")
    try:
        day.play()
    except (Failed, OSError, subprocess.SubprocessError, looks.repository.Wrong) as fault:
        print(f"checks/day: it can't go on: {fault}", flush=True)
        return 1
    return 1 if day.wrong else 0


if __name__ == "__main__":
    sys.exit(main(sys.argv[1:]))
