"""The signer by itself: what it answers, what openssl says of it, what outlives a kill, and what it refuses."""
import base64, datetime, hashlib, importlib.machinery, importlib.util, os, random, re, signal, socket, subprocess, sys
import threading, time

from parts import DIGEST, KEY, OTHER, SIGNER, ask, await_that, end, fail, holds, start, verify, want


def answers():
    program = start("answers")
    (key,) = want(f"key {KEY}", ask(program, "make"))
    (signature,) = want("signature ([0-9a-f]{512})", ask(program, f"sign {key} {DIGEST}"))
    verify(key, DIGEST, signature)
    verify(key, OTHER, signature, 1)
    once_key, once = want(f"once {KEY} ([0-9a-f]{{512}})", ask(program, f"once {DIGEST}"))
    verify(once_key, DIGEST, once)
    for line, expected in (
        (f"check {key} {DIGEST} {signature}", "yes"),
        (f"check {key} {OTHER} {signature}", "no"),
        (f"check {once_key} {DIGEST} {signature}", "no"),
        (f"check {once_key} {DIGEST} {once}", "yes"),
        (f"check {'00' * 270} {DIGEST} {once}", "no"),
        (f"sign {once_key} {DIGEST}", "unknown"),
        (f"drop {once_key}", "done"),
        (f"drop {key}", "done"),
        (f"drop {key}", "done"),
        (f"sign {key} {DIGEST}", "unknown"),
        (f"check {key} {DIGEST} {signature}", "yes"),
    ):
        answered = ask(program, line)
        if answered != expected:
            fail(f"{line[:30]}..: {answered!r}, expected {expected!r}")
    end(program, 0)
    if os.listdir("answers"):
        fail(f"after a dropped key there is {os.listdir('answers')}")


def hello():
    """A meeting is answered by its own words, also behind a line that was cut off; requests that arrive together are
    answered in their order."""
    word = "hello " + "0123456789abcdef" * 2
    program = start("hello")
    for line in (word, "sign 3082" + word, "hello 00" + word):
        if ask(program, line) != word:
            fail(f"{line} isn't answered by {word}")
    program.stdin.write(f"make\n{word}\nonce {DIGEST}\nmake\n")
    program.stdin.flush()
    for pattern in (f"key {KEY}", word, f"once {KEY} [0-9a-f]{{512}}", f"key {KEY}"):
        want(pattern, program.stdout.readline().rstrip("\n"))
    end(program, 0)
    for line in ("hello", "hello 00", word + "0", word.upper()):
        program = start("hello")
        program.stdin.write(line + "\n")
        end(program, 2, "request 1 is none")


def makers_of(program):
    """The processes that make keys for a signer."""
    tasks, found = f"/proc/{program.pid}/task", set()
    for task in os.listdir(tasks):
        try:
            found |= {int(it) for it in open(f"{tasks}/{task}/children").read().split()}
        except FileNotFoundError:
            pass  # A thread that has ended meanwhile.
    return found


def is_running(pid):
    try:
        return open(f"/proc/{pid}/stat").read().rpartition(")")[2].split()[0] != "Z"
    except FileNotFoundError:
        return False


def opened_by(pid):
    """What a process has open, by kind or path. What it closes meanwhile isn't in it."""
    opened = set()
    for it in os.listdir(f"/proc/{pid}/fd"):
        try:
            opened.add(os.readlink(f"/proc/{pid}/fd/{it}").split(":")[0])
        except FileNotFoundError:
            pass
    return opened


def pool():
    """Keys made ahead sign once each, in the order of the requests; they are on no disk; those that make them have
    nothing else open, and end with the signer, however it ends; where one ends, another follows."""
    keys, word = set(), "hello " + "0123456789abcdef" * 2
    processors = len(os.sched_getaffinity(0))
    for end_by in (None, signal.SIGTERM, signal.SIGKILL):
        program = start("pool", "--pool", "6")
        await_that(lambda: len(makers_of(program)) == min(6, processors), "the makers' start")
        makers = makers_of(program)
        limits = open(f"/proc/{program.pid}/limits").read()
        if not re.search(r"Max core file size +0 +0 ", limits):
            fail("a dump of the signer's memory may be written")
        digests = [hashlib.sha256(bytes([turn])).hexdigest() for turn in range(8)]
        program.stdin.write("".join(f"once {digest}\n" for digest in digests) + f"make\n{word}\nonce {OTHER}\n")
        program.stdin.flush()
        for digest in digests:
            key, signature = want(f"once {KEY} ([0-9a-f]{{512}})", program.stdout.readline().rstrip("\n"))
            verify(key, digest, signature)
            keys.add(key)
        for maker in makers:
            # One that has just begun still reads the script.
            await_that(lambda: opened_by(maker) <= {"pipe", "/dev/null"}, "a maker with nothing but pipes open")
        (kept,) = want(f"key {KEY}", program.stdout.readline().rstrip("\n"))
        want(word, program.stdout.readline().rstrip("\n"))
        key, _ = want(f"once {KEY} ([0-9a-f]{{512}})", program.stdout.readline().rstrip("\n"))
        keys |= {key, kept}
        want("unknown", ask(program, f"sign {key} {OTHER}"))
        if hashlib.sha1(bytes.fromhex(kept)).hexdigest() + ".key" not in os.listdir("pool") or len(os.listdir("pool")) * 10 != len(keys):
            fail("the folder has other keys than the kept ones, or a key was given twice")
        if end_by is None:
            end(program, 0)
        else:
            program.send_signal(end_by)
            if program.wait() != -end_by:
                fail(f"status {program.returncode} after signal {end_by}")
        await_that(lambda: not any(map(is_running, makers)), "the makers' end")
    program = start("pool", "--pool", "2")
    await_that(lambda: len(makers_of(program)) == min(2, processors), "the makers' start")
    for maker in makers_of(program):
        os.kill(maker, signal.SIGKILL)
    for _ in range(4):
        want(f"once {KEY} ([0-9a-f]{{512}})", ask(program, f"once {DIGEST}"))
    await_that(lambda: any(map(is_running, makers_of(program))), "another maker")
    program.stdin.close()
    if program.wait() or "a process that makes keys has ended (-9), another follows" not in program.stderr.read():
        fail("nothing is said of a process that ended")
    for size in ("-1", "65537", "many"):
        end(start("pool", "--pool", size), 2, "invalid pool_size value")


def program_parts():
    """The signer as a module, for what can't be seen from outside."""
    sys.dont_write_bytecode = True
    loader = importlib.machinery.SourceFileLoader("krill_signer", SIGNER)
    parts = importlib.util.module_from_spec(importlib.util.spec_from_loader("krill_signer", loader))
    loader.exec_module(parts)
    return parts


def pool_is_bounded(parts):
    """A pool never has more keys than it may, gives none twice, is filled again, and has none once it is closed."""
    kept, given = parts.Pool(3), []
    for _ in range(3):
        await_that(lambda: kept._held() == 3 and not kept.asked, "a full pool")
        time.sleep(3 * parts.REST)
        if kept._held() != 3 or kept.asked:
            fail("a full pool has more keys made")
        kept.prepare_one()
        given += [kept.take() for _ in range(4)]
        if kept._held() + kept.asked > 3:
            fail("a pool has more keys made than it may hold")
    if len({parts.public_bytes(key) for key in given}) != len(given):
        fail("a pool gave a key twice")
    makers = [maker.process for maker in kept.makers]
    kept.close()
    await_that(lambda: all(maker.poll() is not None for maker in makers), "the makers' end")
    if kept._held():
        fail("a closed pool has keys")


def names_of(folder):
    listed = subprocess.run([sys.executable, SIGNER, "--keys", folder, "--list"], capture_output=True, text=True, check=True)
    return listed.stdout.split()


def set_aside(folder, names, status=0, message=""):
    """Sets aside all keys but the named ones, and gives the names that the signer says."""
    with open("kept-names", "w") as file:
        file.write("".join(name + "\n" for name in names))
    ran = subprocess.run(
        [sys.executable, SIGNER, "--keys", folder, "--set-aside-but", "kept-names"], capture_output=True, text=True,
    )
    if ran.returncode != status or message not in ran.stderr or (status == 0 and ran.stderr):
        fail(f"set aside: status {ran.returncode} and {ran.stderr!r}, expected {status} and {message!r}")
    return ran.stdout.split()


def signs(folder, keys):
    """Which of the keys a signer over the folder still has."""
    program = start(folder)
    answered = [ask(program, f"sign {key} {DIGEST}").split()[0] for key in keys]
    end(program, 0)
    return [word == "signature" for word in answered]


def aside(parts):
    """Keys are listed, and set aside while no signer has the folder; they come back by a rename, and are erased on
    their day. A list that isn't one moves nothing."""
    program = start("aside")
    keys = [want(f"key {KEY}", ask(program, "make"))[0] for _ in range(4)]
    names = [hashlib.sha1(bytes.fromhex(key)).hexdigest() for key in keys]
    if names_of("aside") != sorted(names):
        fail("--list doesn't name the keys of the folder")
    set_aside("aside", names[:1], 3, "another krill-signer holds it")
    end(program, 0)
    for faulty in (names[:1] + [names[1].upper()], names[:1] + [names[1][:39]], ["", names[0]], [names[0] + " "]):
        set_aside("aside", faulty, 2, "names no key")
    if names_of("aside") != sorted(names):
        fail("a faulty list moved keys")
    if set_aside("aside", [names[0], names[1], "0" * 40]) != sorted(names[2:]) or names_of("aside") != sorted(names[:2]):
        fail("other keys were set aside than those that the list leaves out")
    if set_aside("aside", names[:2]):
        fail("what is listed was set aside")
    until = datetime.datetime.now(datetime.timezone.utc).date() + datetime.timedelta(days=30)
    files = {f"until-{until}-{name}.key" for name in names[2:]}
    lie = os.listdir("aside/set-aside")
    if set(lie) != files or any(os.stat(f"aside/set-aside/{it}").st_mode & 0o777 != 0o600 for it in lie):
        fail(f"set aside are {lie}")
    if signs("aside", keys) != [True, True, False, False] or set(os.listdir("aside/set-aside")) != files:
        fail("the signer has keys that were set aside, or erased one before its day")
    os.rename(f"aside/set-aside/until-{until}-{names[2]}.key", f"aside/{names[2]}.key")
    if signs("aside", keys) != [True, True, True, False]:
        fail("a key that was brought back isn't one")
    erased_on_their_day(parts, names[3], until)


def erased_on_their_day(parts, name, until):
    today = datetime.datetime.now(datetime.timezone.utc).date()
    late, due = f"aside/set-aside/until-{until}-{name}.key", f"aside/set-aside/until-{today}-{name}.key"
    with open("treasure", "w") as file:
        file.write("kept")
    os.symlink("../../treasure", due)
    end(start("aside"), 3, "not a file of this user alone")
    os.unlink(due)
    if open("treasure").read() != "kept":
        fail("what a link points at was erased")
    content = open(late, "rb").read()
    descriptor = os.open(due, os.O_WRONLY | os.O_CREAT, 0o600)
    os.write(descriptor, content)
    held = parts.Keys("aside")
    if os.path.exists(due) or not os.path.exists(late) or os.fstat(descriptor).st_size != len(content):
        fail("a key isn't erased on its day at a start, or another is")
    if os.pread(os.open(f"/proc/self/fd/{descriptor}", os.O_RDONLY), len(content), 0) != bytes(len(content)):
        fail("a key was removed and not written over")
    os.rename(late, due)
    held.erase_due()
    if not os.path.exists(due):
        fail("a signer looks at each request for keys to erase")
    held.looked -= 3601
    held.erase_due()
    if os.listdir("aside/set-aside"):
        fail("a signer that runs doesn't erase a key on its day")


CRL_OPTIONS = (
    "[ca]\ndefault_ca=a\n[a]\ndatabase=index\ncrlnumber=number\ndefault_md=sha256\ndefault_crl_days=1\n"
    "crl_extensions=e\n[e]\nauthorityKeyIdentifier=keyid\n"
)


def crl_of(key):
    """A CRL that openssl signs with the key of a file, in DER."""
    for path, content in (("ca.conf", CRL_OPTIONS), ("index", ""), ("number", "01\n")):
        with open(path, "w") as file:
            file.write(content)
    key = [key, "-keyform", "DER"]
    for words in (
        ["req", "-x509", "-new", "-key", *key, "-subj", "/CN=a", "-addext", "subjectKeyIdentifier=hash", "-out", "ca.pem"],
        ["ca", "-gencrl", "-config", "ca.conf", "-keyfile", *key, "-cert", "ca.pem", "-out", "crl.pem"],
        ["crl", "-in", "crl.pem", "-outform", "DER", "-out", "crl.der"],
    ):
        ran = subprocess.run(["openssl", *words], capture_output=True, text=True)
        if ran.returncode:
            fail(f"openssl {words[0]}: {ran.stderr}")
    with open("crl.der", "rb") as file:
        return file.read()


def live_list():
    """What the pages say of listing the keys that CRLs name, over an export with CRLs that openssl makes."""
    program = start("live")
    keys = [want(f"key {KEY}", ask(program, "make"))[0] for _ in range(3)]
    end(program, 0)
    names = [hashlib.sha1(bytes.fromhex(key)).hexdigest() for key in keys]
    os.makedirs("krill-data/repo/session/2")
    with open("krill-data/repo/notification.xml", "w") as file:
        file.write('<notification serial="2">\n  <snapshot uri="https://a.example/b/session/2/snapshot.xml" hash="00"/>\n</notification>\n')
    with open("krill-data/repo/session/2/snapshot.xml", "w") as file:
        for name in names[:2]:
            for kind, content in (("mft", b"\x30\x00"), ("crl", crl_of(f"live/{name}.key"))):
                file.write(f'  <publish uri="rsync://a.example/{name}.{kind}">{base64.b64encode(content).decode()}</publish>\n')
    pages = open(os.path.join(os.path.dirname(SIGNER), "..", "docs", "signers.md")).read()
    (words,) = re.findall(r"```sh\n(repo=.*?)```", pages, re.S)
    subprocess.run(["sh", "-c", words], check=True)
    listed = open("live-keys").read().split()
    if listed != sorted(names[:2]) or set_aside("live", listed) != names[2:]:
        fail(f"the CRLs name {sorted(names[:2])}, listed is {listed}")


def strange_files():
    """What is not the signer's own in its folder is refused, and stays as it is."""
    program = start("strange")
    ask(program, "make")
    end(program, 0)
    (name,) = os.listdir("strange")
    content = open(f"strange/{name}", "rb").read()
    with open("treasure", "wb") as file:
        file.write(content)
    os.chmod("treasure", 0o600)
    strange = {
        "new-link": lambda path: os.symlink("../treasure", path),
        "gone-link": lambda path: os.symlink("../treasure", path),
        "new-same": lambda path: os.link("treasure", path),
        "new-pipe": os.mkfifo,
        "new-folder": os.mkdir,
        "pipe.key": os.mkfifo,
    }
    for name_of_it, make in strange.items():
        make(f"strange/{name_of_it}")
        end(start("strange"), 3, f"{name_of_it}: not a file of this user alone")
        (os.rmdir if name_of_it == "new-folder" else os.unlink)(f"strange/{name_of_it}")
    os.chmod(f"strange/{name}", 0o640)
    end(start("strange"), 3, f"{name}: not a file of this user alone")
    os.unlink(f"strange/{name}")
    os.symlink("../treasure", f"strange/{name}")
    end(start("strange"), 3, f"{name}: not a file of this user alone")
    if open("treasure", "rb").read() != content:
        fail("a file behind a link was written")


def strange_pipes():
    """What stands in the place of a FIFO is refused, and stays as it is; two signers don't serve one pair."""
    os.mkdir("pipes")
    with open("target", "w") as file:
        file.write("kept")
    strange = (
        lambda path: os.link("target", path),
        lambda path: os.symlink("../target", path),
        lambda path: os.symlink("nothing", path),
        lambda path: os.symlink("other", path),
        os.mkdir,
        lambda path: socket.socket(socket.AF_UNIX).bind(path),
    )
    os.mkfifo("pipes/other")
    for make in strange:
        for pipe in ("pipes/signer-0.in", "pipes/signer-0.out"):
            make(pipe)
            end(start("pipe-keys", "--fifos", "pipes/signer-0"), 3, f"{pipe}: no FIFO")
            (os.rmdir if make is os.mkdir else os.unlink)(pipe)
            for left in ("pipes/signer-0.in", "pipes/signer-0.out"):
                if os.path.lexists(left):
                    os.unlink(left)
    if open("target").read() != "kept":
        fail("a file in the place of a FIFO was written")
    first = start("pipe-keys", "--fifos", "pipes/signer-0")
    while not os.path.exists("pipes/signer-0.out") or not holds(first, "pipes/signer-0.out"):
        time.sleep(0.02)
    time.sleep(0.2)
    end(start("other-keys", "--fifos", "pipes/signer-0"), 3, "another krill-signer serves it")
    first.terminate()
    first.wait()


def count_opened(program, path):
    """How many of its pipes a signer has open: one that it holds alone, and two more while it serves a run."""
    opened, count = f"/proc/{program.pid}/fd", 0
    for it in os.listdir(opened):
        try:
            count += os.readlink(os.path.join(opened, it)).startswith(os.path.abspath(path))
        except FileNotFoundError:
            pass  # It has closed it meanwhile.
    return count


def replaced_pipes():
    """What is put in the place of a FIFO while a signer serves is refused with the next run, and stays as it is."""
    os.mkdir("replaced")
    with open("kept", "w") as file:
        file.write("kept")
    path = "replaced/signer-0"
    link, file = lambda path: os.symlink("../kept", path), lambda path: os.link("kept", path)
    requests, both = [(".out", "w")], [(".in", "r"), (".out", "w")]
    for pipe, make, next_run, message in (
        (".in", link, requests, "a link, and no FIFO"),
        (".out", link, [], "a link, and no FIFO"),
        (".in", file, requests, "no FIFO"),
        (".out", file, [], "no FIFO"),
        (".out", os.mkfifo, both, "another FIFO than at the start"),
    ):
        program = start("replaced-keys", "--fifos", path)
        await_that(lambda: os.path.exists(path + ".out"), "the pipes of a signer")
        with open(path + ".out", "w"), open(path + ".in"):  # The second one is closed first.
            await_that(lambda: count_opened(program, path) == 3, "a run's start")
            os.unlink(path + pipe)
            make(path + pipe)
        await_that(lambda: count_opened(program, path) <= 1, "a run's end")
        opened = [open(path + end_of_it, mode) for end_of_it, mode in next_run]
        program.wait()
        end(program, 3, f"{path}{pipe}: {message}")
        for descriptor in opened:
            descriptor.close()
        for end_of_it in (".in", ".out"):
            os.unlink(path + end_of_it)
    if open("kept").read() != "kept":
        fail("a file in the place of a FIFO was written")


def modes():
    program = start("modes")
    ask(program, "make")
    if os.stat("modes").st_mode & 0o777 != 0o700:
        fail("the folder is not its user's alone")
    for name in os.listdir("modes"):
        if os.stat(os.path.join("modes", name)).st_mode & 0o777 != 0o600:
            fail(f"{name} is not its user's alone")
    second = start("modes")
    end(second, 3, "another krill-signer holds it")
    end(program, 0)
    os.chmod("modes", 0o755)
    end(start("modes"), 3, "not a folder of this user alone")


def faulty_lines():
    long = f"check {'3' * 540} {DIGEST} {'0' * 512}0"
    for line in ("", long, "makes", "make ", "sign", f"once {DIGEST.upper()}", f"once {DIGEST}0", f" once {DIGEST}", "x" * 5000):
        program = start("faulty")
        program.stdin.write(line + "\n")
        end(program, 2, "request 1 is none")
    program = start("faulty")
    program.stdin.write("make")
    end(program, 2, "end within request 1")
    program = start("faulty")
    program.stdin.write("make" * 300)  # A line without an end is no request as soon as it is longer than any.
    program.stdin.flush()
    program.wait()
    end(program, 2, "request 1 is none")


def kills():
    """Every answered key is there after a kill at any moment, and no file is left half made."""
    known = []
    for _ in range(6):
        program = start("kills")
        known.append(want(f"key {KEY}", ask(program, "make"))[0])
        killer = threading.Timer(random.uniform(0.0, 1.0), lambda: program.send_signal(signal.SIGKILL))
        killer.start()
        try:
            while True:
                answered = ask(program, "make")
                if not answered:
                    break
                known.append(want(f"key {KEY}", answered)[0])
        except BrokenPipeError:
            pass
        killer.join()
        program.kill()
        program.wait()
        program = start("kills")
        for key in known:
            (signature,) = want("signature ([0-9a-f]{512})", ask(program, f"sign {key} {DIGEST}"))
        end(program, 0)
        strange = [name for name in os.listdir("kills") if not re.fullmatch(r"[0-9a-f]{40}\.key", name)]
        if strange:
            fail(f"left over: {strange}")
    verify(known[-1], DIGEST, signature)
    return len(known)


def fifos():
    """Two runs over the same FIFOs, which are opened in either order; the first one ends within a request."""
    os.mkdir("run")
    program = start("fifo-keys", "--fifos", "run/signer-0")
    while not os.path.exists("run/signer-0.out"):
        time.sleep(0.02)
    key = None
    for turn in range(2):
        if turn == 0:
            given, asked = open("run/signer-0.in"), open("run/signer-0.out", "w")
        else:
            asked, given = open("run/signer-0.out", "w"), open("run/signer-0.in")
        asked.write(f"sign {key} {DIGEST}\n" if key else "make\n")
        asked.flush()
        answered = given.readline().rstrip("\n")
        if key:
            (signature,) = want("signature ([0-9a-f]{512})", answered)
            verify(key, DIGEST, signature)
        else:
            (key,) = want(f"key {KEY}", answered)
            asked.write("mak")
        asked.close()
        given.close()
        time.sleep(0.5)  # The signer sees the end before the next run begins.
    program.terminate()
    program.wait()


def try_all():
    """Tries all of it. Gives how many keys outlived kills."""
    answers()
    hello()
    modes()
    strange_files()
    strange_pipes()
    replaced_pipes()
    faulty_lines()
    pool()
    parts = program_parts()
    pool_is_bounded(parts)
    aside(parts)
    live_list()
    made = kills()
    fifos()
    return made
