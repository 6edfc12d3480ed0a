#!/usr/bin/env python3
"""serve.py KRILLC: nginx, rsyncd and krill-unpack as serve/ has them, in a network of loopback alone, while krillc with a
real signer publishes edition after edition. Clients of both ways copy all the time: each copy has to be one edition whole.
After each edition rpki-client, by RRDP alone and by rsync alone, has to find what `roas list` shows as published."""
import hashlib
import json
import os
import shutil
import ssl
import subprocess
import sys
import tempfile
import threading
import time
import urllib.error
import urllib.request
import xml.etree.ElementTree as xml

TOP = os.path.dirname(os.path.dirname(os.path.realpath(__file__)))
sys.path.insert(0, os.path.join(TOP, "checks", "validators"))
import loopback  # noqa: E402
import parties  # noqa: E402
import program  # noqa: E402
import repository  # noqa: E402

INSIDE = "--inside"
SERVE = os.path.join(TOP, "serve")
MODULE = f"rsync://{repository.HOST}/repo/"
ROAS = "roas update"
# What each edition changes.
EDITIONS = [
    [{"command": ROAS, "ca": "ta", "add": ["192.0.2.0/24 => 64496", "2001:db8::/32-48 => 64496"]}],
    [{"command": "add", "ca": "isp"}, {"command": "parents add", "ca": "isp", "parent": "ta"},
     {"command": "children add", "ca": "ta", "child": "isp", "resources": {"ipv4": "10.0.0.0/8"}},
     {"command": ROAS, "ca": "isp", "add": ["10.1.0.0/16-24 => 64497"]}],
    [{"command": ROAS, "ca": "ta", "add": ["198.51.100.0/24 => 64498"], "remove": ["192.0.2.0/24 => 64496"]}],
    [{"command": "children update", "ca": "ta", "child": "isp", "resources": {"ipv4": "11.0.0.0/8"}}],
]


class ByRsync(parties.RpkiClient):
    """rpki-client that never asks for RRDP."""

    agent = "none"

    def run(self, folder, online):
        os.makedirs(os.path.join(folder, "cache"), exist_ok=True)
        os.makedirs(os.path.join(folder, "out"), exist_ok=True)
        words = ["rpki-client", "-R", "-v", "-j", "-d", os.path.join(folder, "cache"), "-t", "ta.tal", "out"]
        complaints = [it for it in parties.words_of_a_run(words, folder, self.USUAL) if not self.fetches(it)]
        told = parties.read_json(os.path.join(folder, "out", "json"), complaints)
        counts = told.get("metadata", {})
        complaints += [f"{word}: {counts[word]}" for word in self.ZEROS if counts.get(word)]
        rows = told.get("roas", [])
        return parties.Found({parties.payload(it["prefix"], it["maxLength"], it["asn"]) for it in rows}, complaints)

    @staticmethod
    def fetches(line):
        return line.startswith("rpki-client: ") and line.endswith((": pulling from network", ": loaded from network", MODULE[:-1]))


def configured(name, scratch):
    """The configuration as serve/ has it, over the scratch folder."""
    with open(os.path.join(SERVE, name), encoding="ascii") as file:
        text = file.read()
    for old, new in (("/var/lib/krill/krill-data", f"{scratch}/store/krill-data"), ("/var/lib/krill/rsync", f"{scratch}/trees"),
                     ("/etc/ssl/certs/rpki.example.pem", f"{scratch}/network/server.pem"),
                     ("/etc/ssl/private/rpki.example.key", f"{scratch}/network/server.key")):
        text = text.replace(old, new)
    path = os.path.join(scratch, name)
    loopback.write_text(path, text)
    return path


def start_servers(scratch):
    """nginx, rsyncd and krill-unpack."""
    main = os.path.join(scratch, "main.conf")
    loopback.write_text(main, f"""daemon off; pid {scratch}/nginx.pid; error_log {scratch}/nginx.error;
events {{}}
http {{ access_log off; client_body_temp_path {scratch}/body; include {configured("nginx.conf", scratch)}; }}
""")
    log = open(os.path.join(scratch, "log"), "wb")
    words = (["nginx", "-c", main, "-e", f"{scratch}/nginx.error"],
             ["rsync", "--daemon", "--no-detach", f"--config={configured('rsyncd.conf', scratch)}", "--address=127.0.0.1"],
             [sys.executable, os.path.join(SERVE, "krill-unpack"), f"{scratch}/store/krill-data/repo", f"{scratch}/trees",
              MODULE.removeprefix("rsync://"), "--follow"])
    return [subprocess.Popen(it, stdin=subprocess.DEVNULL, stdout=log, stderr=log) for it in words]


def tree_of(folder):
    """The files below a folder by path, hashed."""
    found = {}
    for at, _, names in os.walk(folder):
        for name in names:
            path = os.path.join(at, name)
            with open(path, "rb") as file:
                found[os.path.relpath(path, folder)] = hashlib.sha256(file.read()).hexdigest()
    return found


class Copies:
    """Clients of both ways, which copy until they are stopped: what each copy had."""

    def __init__(self, scratch):
        self.scratch, self.stopped = scratch, threading.Event()
        self.trees, self.snapshots, self.wrong, self.first = [], [], [], ""
        self.context = ssl.create_default_context(cafile=f"{scratch}/network/ca.pem")
        self.threads = [threading.Thread(target=it) for it in (self.by_rsync, self.by_https)]
        for it in self.threads:
            it.start()

    def by_rsync(self):
        """One copy goes on from the one before, as relying parties do."""
        kept = os.path.join(self.scratch, "kept")
        while not self.stopped.is_set():
            ran = subprocess.run(["rsync", "-rt", "--delete", MODULE, f"{kept}/"], capture_output=True, text=True, check=False)
            if ran.returncode == 0:
                self.trees.append(tree_of(kept))
            elif self.trees:
                self.wrong.append(f"rsync: {ran.stderr.strip()}")
            time.sleep(0.1)

    def by_https(self):
        while not self.stopped.is_set():
            try:
                self.snapshots.append(self.fetch())
            except (OSError, ValueError, xml.ParseError) as fault:
                # nothing is handed out before the first edition
                self.first = f"https: {fault}"
                if self.snapshots:
                    self.wrong.append(self.first)
            time.sleep(0.1)

    def get(self, uri, cache):
        with urllib.request.urlopen(urllib.request.Request(uri, headers={"Accept-Encoding": "identity"}), context=self.context) as answer:
            if answer.headers["Cache-Control"] != cache:
                raise ValueError(f"{uri}: Cache-Control is {answer.headers['Cache-Control']}")
            return answer.read()

    def fetch(self):
        """The serial that the notification tells, after its snapshot was found as it says."""
        told = xml.fromstring(self.get(f"{repository.RRDP}notification.xml", "no-cache"))
        named = told.find(f"{repository.NAMESPACE}snapshot")
        content = self.get(named.get("uri"), "public, max-age=86400, immutable")
        if hashlib.sha256(content).hexdigest() != named.get("hash").lower():
            raise ValueError(f"{named.get('uri')} has another hash than the notification says")
        return int(told.get("serial"))

    def stop(self):
        self.stopped.set()
        for it in self.threads:
            it.join()


def wait_for_tree(scratch, exported):
    """Waits until krill-unpack has the edition, and gives its tree."""
    want = {uri.removeprefix(MODULE): hashlib.sha256(content).hexdigest() for uri, content in exported.objects.items()}
    for _ in range(600):
        if tree_of(os.path.realpath(f"{scratch}/trees/current")) == want:
            return want
        time.sleep(0.1)
    raise program.Failed("krill-unpack didn't come to the edition within a minute")


def publish(daemon, scratch, lines, wrong):
    """One edition, and what rpki-client finds of it by either way."""
    for line in lines:
        reply = daemon.ask(json.dumps(line))
        if reply.get("reply") != "accepted":
            raise program.Failed(f"{line}: {reply}")
    reply = daemon.ask('{"command":"publish"}')
    if reply.get("reply") != "published":
        raise program.Failed(f"publish: {reply}")
    exported = repository.read_exported(daemon.repository)
    tree = wait_for_tree(scratch, exported)
    wanted = {parties.payload_of_origin(it) for it in daemon.published_origins()}
    # an edition begins in the second in which it was published
    time.sleep(1.1)
    for party in (parties.RpkiClient(), ByRsync()):
        found = parties.look_online(party, exported, os.path.join(scratch, type(party).__name__))
        name = f"edition {exported.serial}, {type(party).__name__}"
        wrong += [f"{name}: {it}" for it in found.complaints]
        if found.payloads != wanted:
            wrong.append(f"{name}: found {sorted(found.payloads)}, wanted {sorted(wanted)}")
    return tree


def other_answers(copies, wrong):
    """What is no file of the repository isn't handed out, and gzip is."""
    for path in ("", "../desk-00", "notification.xml.new", "lock"):
        try:
            copies.get(repository.RRDP + path, None)
            wrong.append(f"https: /rrdp/{path} is handed out")
        except urllib.error.HTTPError as fault:
            if fault.code != 404:
                wrong.append(f"https: /rrdp/{path}: {fault}")
    asked = urllib.request.Request(f"{repository.RRDP}notification.xml", headers={"Accept-Encoding": "gzip"})
    with urllib.request.urlopen(asked, context=copies.context) as answer:
        if answer.headers["Content-Encoding"] != "gzip":
            wrong.append("https: the notification isn't compressed for who takes that")


def try_all(krillc, scratch):
    os.chmod(scratch, 0o755)
    loopback.set_up(os.path.join(scratch, "network"))
    os.makedirs(f"{scratch}/store")
    os.makedirs(f"{scratch}/trees")
    servers, wrong, trees, copies, daemon = start_servers(scratch), [], [], None, None
    try:
        daemon, copies = program.Program(krillc, f"{scratch}/store", 1), Copies(scratch)
        for lines in EDITIONS:
            trees.append(publish(daemon, scratch, lines, wrong))
        other_answers(copies, wrong)
        daemon.close()
    finally:
        if copies:
            copies.stop()
        if daemon:
            daemon.kill()
        for it in servers:
            it.terminate()
            it.wait()
    wrong += copies.wrong
    halves = [it for it in copies.trees if it and it not in trees]
    wrong += [f"rsync: a copy of {len(it)} files is no edition" for it in halves]
    if copies.snapshots != sorted(copies.snapshots):
        wrong.append("https: a serial fell")
    for it in wrong:
        print(f"checks/serve: {it}")
    seen = len({json.dumps(it, sort_keys=True) for it in copies.trees if it})
    if not wrong and (seen < 2 or len(set(copies.snapshots)) < 2):
        wrong.append("too few copies")
        print(f"checks/serve: {len(copies.trees)} copies by rsync and {len(copies.snapshots)} by https showed one edition alone; {copies.first}")
    if not wrong:
        print(f"checks/serve: ok, {len(EDITIONS)} editions, {len(copies.trees)} copies by rsync, {len(copies.snapshots)} by https")
    return 1 if wrong else 0


def main(words):
    if INSIDE not in words:
        loopback.in_namespaces([sys.executable, os.path.realpath(__file__), INSIDE, *words])
    with tempfile.TemporaryDirectory(prefix="serve-") as scratch:
        return try_all(os.path.realpath(words[1]), scratch)


if __name__ == "__main__":
    sys.exit(main(sys.argv[1:]))
