#!/usr/bin/env python3
"""client.py KRILL KRILLC: runs the command line over the daemon in a scratch store, and compares what it prints."""
import fcntl
import json
import os
import re
import shutil
import subprocess
import sys
import tempfile
import threading
import time

REHEARSAL = "krillc: no signer's pipes stand in krill-data: signatures are a rehearsal's, which no relying party accepts\n"
TREE = """Authority: isp
Parent:    ta
Keys:      steady
Certified: AS64496; IPv4 192.0.2.0/24; IPv6 2001:db8::/32
Edition:   1
Children:  none
"""
ANCHOR = """Authority: ta
Parent:    none
Keys:      steady
Certified: AS0-AS4294967295; IPv4 0.0.0.0/0; IPv6 ::/0
Edition:   1

CHILD  STATE   RESOURCES
isp    active  AS64496; IPv4 192.0.2.0/24; IPv6 2001:db8::/32
"""
HISTORY = """COUNT  COMMAND
1      parents add --ca isp --parent ta
2      roas update --ca isp --add '192.0.2.0/24 => 64496' --add '198.51.100.0/24 => 64497'
"""
ORIGINS = """ORIGIN                    STATE
192.0.2.0/24 => 64496     published
198.51.100.0/24 => 64497  held
"""
CSV = "prefix,length,asn\n192.0.2.0/24,24,AS64496\n198.51.100.0/24,24,AS64497\n"
MORE = "prefix, max, as\n# kept\n192.0.2.0/24, , 64496\n2001:db8::/32,48,as64496\n"

# words, status, standard output, standard error: texts that are compared whole, patterns that have to match whole,
# or None for whatever it is
CASES = [
    (["list"], 3, "", re.compile(r"krill: no store in .*: 'krill init' makes one\n")),
    (["init"], 0, "", ""),
    (["list"], 0, "NAME  STATE\nta    active\n", ""),
    (["add", "--ca", "isp"], 0, "Accepted: command 1 of ta.\n", ""),
    (["add", "--ca", "isp"], 1, "", "krill: NameTaken: an authority has that name\n"
     "Names are never free again, those of deleted authorities neither.\n"),
    (["--format", "json", "add", "--ca", "isp"], 1, '{"code": 2, "detail": "", "refused": "NameTaken"}\n', ""),
    (["children", "add", "--ca", "ta", "--child", "isp", "--asn", "AS64496", "--ipv4", "192.0.2.0/24", "--ipv6", "2001:db8::/32"],
     0, "Accepted: command 2 of ta.\n", ""),
    (["parents", "add", "--ca", "isp", "--parent", "ta"], 0, "Accepted: command 1 of isp.\n", ""),
    (["roas", "update", "--ca", "isp", "--add", "192.0.2.0/24 => 64496", "--add", "198.51.100.0/24 => 64497"],
     0, "Accepted: command 2 of isp.\n", ""),
    (["roas", "update", "--ca", "isp", "--add", "192.0.2.0/24 => 64496"], 1, "",
     "krill: OriginThere: the origin is configured (192.0.2.0/24 => 64496)\nLeave it out, or remove it in the same update.\n"),
    (["roas", "update", "--ca", "isp"], 2, "", "krill: neither --add nor --remove is given\n"),
    (["serial"], 0, "0\n", ""),
    (["audit"], 0, "Nothing was published yet.\n", ""),
    (["publish"], 0, re.compile(r"Edition 1 of \d{4}-\d\d-\d\d \d\d:\d\d:\d\d UTC: 7 objects, 1 origin\.\n"), REHEARSAL),
    (["audit"], 0, re.compile(r"Edition 1 of \d{4}-\d\d-\d\d \d\d:\d\d:\d\d UTC is sound: 7 objects, 2 publication points, 1 origin\.\n"), ""),
    (["--format", "json", "audit"], 0, re.compile(r'{"moment": \d+, "objects": 7, "origins": 1, "points": 2, "serial": 1}\n'), ""),
    (["history", "commands", "--ca", "isp"], 0, HISTORY, ""),
    (["history", "--ca", "isp"], 0, HISTORY, ""),
    (["roas", "export", "--ca", "isp", "--as", "csv"], 0, CSV, ""),
    (["roas", "import", "--ca", "isp", "--dry-run", "more.csv"], 0, "",
     "+ 2001:db8::/32-48 => 64496\n1 to add, 0 to remove, 2 stay.\n"),
    (["roas", "import", "--ca", "isp", "more.csv"], 2, "",
     "+ 2001:db8::/32-48 => 64496\n1 to add, 0 to remove, 2 stay.\n"
     "krill: not confirmed: nothing was sent; --yes sends without asking\n"),
    (["roas", "import", "--ca", "isp", "--replace", "--yes", "more.csv"], 0, "Accepted: command 3 of isp.\n",
     "- 198.51.100.0/24 => 64497\n+ 2001:db8::/32-48 => 64496\n1 to add, 1 to remove, 1 stay.\n"),
    (["roas", "import", "--ca", "isp", "--replace", "--yes", "more.csv"], 0, "", "0 to add, 0 to remove, 2 stay.\n"),
    (["roas", "import", "--ca", "isp", "faulty.csv"], 2, "", "krill: faulty.csv:2: 192.0.2.1/24 has host bits set\n"),
    (["roas", "import", "--ca", "isp", "faulty.json"], 2, "", "krill: faulty.json: origin 1: length 33 isn't from 24 to 32\n"),
    (["roas", "import", "--ca", "isp", "absent"], 2, "", "krill: absent: No such file or directory\n"),
    (["roas", "export", "--ca", "none"], 1, "", "krill: NoSuchAuthority: no authority has that name (none)\n"
     "'krill list' shows the names.\n"),
    (["keyroll", "activate", "--ca", "isp"], 1, "", "krill: NoRoll: no rollover was begun that isn't activated\n"
     "'krill keyroll init' begins one.\n"),
    (["keyroll", "init", "--ca", "isp"], 0, "Accepted: command 4 of isp.\n", ""),
    (["keyroll", "init", "--ca", "isp"], 1, "", "krill: RollGoing: a rollover was begun and isn't activated\n"
     "'krill keyroll activate' goes on with it.\n"),
    (["keyroll", "init", "--ca", "ta"], 1, "",
     "krill: NotForAnchor: the anchor 'ta' can't be deleted, has no parent, and keeps its key\n"),
    (["watch", "--looks", "1"], 0, re.compile(r"\d\d:\d\d:\d\d  edition 1\nAUTHORITY +PUBLISHED +PENDING +HELD\n"
                                               r"ta +0 +0 +0\nisp +1 +1 +0\n\n"), ""),
    (["--krillc", "/bin/false", "list"], 4, "", re.compile(r"krill: krillc ended with status 1\n(.*\n)?")),
    (["--krillc", "./absent", "list"], 4, "", "krill: ./absent: No such file or directory\n"),
    (["shew"], 2, "", None),
]


def check(failed, what, got, want):
    if isinstance(want, re.Pattern):
        is_well = want.fullmatch(got) is not None
    else:
        is_well = want is None or got == want
    if not is_well:
        failed.append(what)
        print(f"checks/client: {what}\n  got  {got!r}\n  want {want!r}")


def main():
    krill, krillc = (os.path.realpath(it) for it in sys.argv[1:])
    failed = []
    with tempfile.TemporaryDirectory() as scratch:
        def run(*words):
            kept = {key: value for key, value in os.environ.items() if not key.startswith("KRILL_")}
            environment = {**kept, "KRILL_PROGRAM": krillc, "KRILL_SETTINGS": os.path.join(scratch, "settings")}
            return subprocess.run([sys.executable, krill, *words], cwd=scratch, env=environment, stdin=subprocess.DEVNULL,
                                  capture_output=True, text=True, check=False)

        for name, text in (("more.csv", MORE), ("faulty.csv", "192.0.2.0/24,24,1\n192.0.2.1/24,24,1\n"),
                           ("faulty.json", '[{"asn": 1, "prefix": "192.0.2.0/24", "max_length": 33}]')):
            with open(os.path.join(scratch, name), "w", encoding="utf-8") as file:
                file.write(text)
        for words, status, output, error in CASES:
            ran = run(*words)
            name = " ".join(words)
            check(failed, f"{name}: status", ran.returncode, status)
            check(failed, f"{name}: standard output", ran.stdout, output)
            check(failed, f"{name}: standard error", ran.stderr, error)
        round_trip(failed, run, scratch)
        health(failed, run)
        first_to_end(failed, run, scratch)
        completes(failed, run)
        busy(failed, run, scratch, krillc)
        waits(failed, run, scratch)
        takes_settings(failed, run, scratch)
        becomes_owner(failed, run, scratch)
    if failed:
        sys.exit(1)
    print(f"checks/client: ok, {len(CASES)} commands")


def round_trip(failed, run, scratch):
    """What is exported in either form is taken over as what stands."""
    for form in ("json", "csv"):
        with open(os.path.join(scratch, "exported"), "w", encoding="utf-8") as file:
            file.write(run("roas", "export", "--ca", "isp", "--as", form).stdout)
        ran = run("roas", "import", "--ca", "isp", "--replace", "--yes", "exported")
        check(failed, f"export and import as {form}", ran.stderr, "0 to add, 0 to remove, 2 stay.\n")


def gauges(text):
    return dict(re.findall(r"^(\w+(?:\{[^}]*\})?) (-?\d+)$", text, re.M))


def health(failed, run):
    """The gauges are those of the edition that was published, and are read back as Prometheus does."""
    text = run("status", "--prometheus").stdout
    line = re.compile(r'# (HELP|TYPE) \w+ .+|(\w+)(\{\w+="[^"]*"(,\w+="[^"]*")*\})? (-?\d+)')
    for each in text.splitlines():
        check(failed, "status --prometheus", each, line)
    values = gauges(text)
    check(failed, "krill_serial", values.get("krill_serial"), "1")
    check(failed, "krill_authorities", values.get("krill_authorities"), "2")
    age = int(values.get("krill_edition_age_seconds", -1))
    check(failed, "the age and what is left are a day", age + int(values.get("krill_edition_left_seconds", 0)), 86400)
    check(failed, "the age", 0 <= age < 600, True)
    check(failed, "the journals", sorted(it for it in values if it.startswith("krill_journal_bytes")),
          [f'krill_journal_bytes{{journal="{it}"}}' for it in ("desk-00", "desk-01", "press")])
    check(failed, "the limit of the editions", values.get('krill_journal_limit_bytes{journal="press"}'), str(2**30))
    check(failed, "status --format json", json.loads(run("--format", "json", "status").stdout)["serial"], 1)


def first_to_end(failed, run, scratch):
    """A point that stays ends before the newer one of the anchor: the gauges go by it, and it has the number that it had."""
    store, aside = os.path.join(scratch, "older"), os.path.join(scratch, "aside")
    os.mkdir(store)

    def krill(*words):
        ran = run("--store", store, *words)
        check(failed, f"an older point: {' '.join(words)}", ran.returncode, 0)
        return ran.stdout

    def points(*words):
        return [(it["number"], it["uri"].split("/")[4]) for it in json.loads(krill("--format", "json", "points", *words))]

    for words in (["init"], ["add", "--ca", "isp"], ["children", "add", "--ca", "ta", "--child", "isp", "--ipv4", "10.0.0.0/8"],
                  ["parents", "add", "--ca", "isp", "--parent", "ta"]):
        krill(*words)
    check(failed, "points before the first edition", krill("points"), "")
    with open(os.path.join(scratch, "settings"), "w", encoding="ascii") as file:
        file.write("KRILL_CLOCK_BEHIND=3600\n")
    krill("publish")
    os.remove(os.path.join(scratch, "settings"))
    shutil.copytree(os.path.join(store, "krill-data", "repo"), aside)
    krill("roas", "update", "--ca", "ta", "--add", "192.0.2.0/24 => 5")
    krill("publish")
    values = {name: int(value) for name, value in gauges(krill("status", "--prometheus")).items()}
    left = values["krill_edition_left_seconds"]
    check(failed, "an older point: the age", 0 <= values["krill_edition_age_seconds"] < 600, True)
    check(failed, "an older point: what is left", 82800 - 600 < left <= 82800, True)
    check(failed, "an older point: when it's due", values["krill_edition_due_seconds"], left - 8 * 3600)
    check(failed, "the points, the first to end at first", points(), [(1, "isp"), (2, "ta")])
    check(failed, "the points that aren't above", points("--not-above", aside), [(1, "isp")])
    check(failed, "no edition to compare with", run("--store", store, "points", "--not-above", scratch).returncode, 2)


def completes(failed, run):
    """bash takes the completion, and completes by it."""
    script = run("completion").stdout + 'COMP_WORDS=(krill roas up) COMP_CWORD=2; _krill; echo "${COMPREPLY[*]}"\n'
    script += 'COMP_WORDS=(krill --format json children "") COMP_CWORD=4; _krill; echo "${COMPREPLY[*]}"\n'
    ran = subprocess.run(["bash", "-c", script], capture_output=True, text=True, check=False)
    check(failed, "completion", ran.stdout, "update\nadd update remove suspend unsuspend -h --help\n")
    check(failed, "completion says nothing", ran.stderr, "")


def busy(failed, run, scratch, krillc):
    """A store that another krillc has is told as that, and its status still tells what its files have."""
    with subprocess.Popen([krillc, "run"], cwd=scratch, stdin=subprocess.PIPE, stdout=subprocess.PIPE,
                          stderr=subprocess.DEVNULL) as other:
        other.stdin.write(b'{"command":"serial"}\n')
        other.stdin.flush()
        other.stdout.readline()
        ran = run("list")
        check(failed, "a store in use: status", ran.returncode, 4)
        check(failed, "a store in use", ran.stderr.startswith("krill: krillc: device failed\nIs another krillc running"), True)
        ran = run("status")
        check(failed, "status of a store in use", (ran.returncode, ran.stdout.startswith("Edition:     1, of ")), (0, True))
        other.stdin.close()


def waits(failed, run, scratch):
    """A command waits for another one over the store."""
    held = os.open(scratch, os.O_RDONLY)
    fcntl.flock(held, fcntl.LOCK_EX)
    threading.Timer(1, os.close, [held]).start()
    begun = time.monotonic()
    check(failed, "a command behind another one", run("serial").stdout, "1\n")
    check(failed, "it waited", time.monotonic() - begun >= 1, True)


def takes_settings(failed, run, scratch):
    """The bases of the settings reach krillc, and those of a store can't be changed by them; nor can its clock be set at will."""
    for text, status, error in (
            ("KRILL_RSYNC=rsync://rpki.example/repo/\nOTHER=1\n", 0, ""),
            ("KRILL_RSYNC=rsync://other.example/repo/\n", 3, re.compile(r"krill: krillc: opening refused: SiteDiffers (.*\n)+")),
            ("KRILL_CLOCK_BEHIND=4000\n", 2, re.compile("krill: krillc: .*\n(.*\n)*"))):
        with open(os.path.join(scratch, "settings"), "w", encoding="ascii") as file:
            file.write(f"# settings\n{text}")
        ran = run("serial")
        check(failed, f"{text!r}: status", ran.returncode, status)
        check(failed, f"{text!r}: standard error", ran.stderr, error)
    os.remove(os.path.join(scratch, "settings"))


def becomes_owner(failed, run, scratch):
    """Root makes nothing of its own in another user's store."""
    if os.geteuid() != 0:
        return
    os.chmod(scratch, 0o755)
    store = os.path.join(scratch, "other")
    os.mkdir(store)
    os.chown(store, 65534, 65534)
    ran = run("--store", store, "add", "--ca", "isp")
    check(failed, "in another user's folder", ran.stderr, re.compile("krill: no store in .*: 'krill init' makes one\n"))
    check(failed, "init in another user's folder", run("--store", store, "init").returncode, 0)
    check(failed, "add in another user's folder", run("--store", store, "add", "--ca", "isp").returncode, 0)
    owners = {os.stat(os.path.join(at, name)).st_uid for at, _, names in os.walk(store) for name in names}
    check(failed, "whose the files are", owners, {65534})


if __name__ == "__main__":
    main()
