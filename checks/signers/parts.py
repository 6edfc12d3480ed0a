"""What the trials share: the programs, their lines, openssl's word on a signature."""
import atexit, contextlib, hashlib, os, random, re, subprocess, sys, time

ROUNDS = int(sys.argv[1])
SIGNER, CALLER, KRILLC = (None if word == "-" else os.path.abspath(word) for word in sys.argv[2:])
DIGEST = hashlib.sha256(b"what is signed").hexdigest()
OTHER = hashlib.sha256(b"something else").hexdigest()
# SEQUENCE { rsaEncryption with NULL, BIT STRING }: what stands before the 270 bytes of a key in a public key file.
KEY_INFO = "30820122300d06092a864886f70d01010105000382010f00"
KEY = "(3082010a0282010100[89a-f][0-9a-f]{511}0203010001)"
# The pool of signers that are killed with what they are asked.
POOL = ("--pool", "2")
# Every program that was started. None outlives the trials.
STARTED = []
random.seed(int(os.environ.get("SEED", 5)))


def fail(text):
    sys.exit(f"checks/signer: {text}")


def kill(program):
    """Kills a program and closes its streams: many are killed, and `select` takes descriptors below 1,024 alone."""
    program.kill()
    program.wait()
    for stream in (program.stdin, program.stdout, program.stderr):
        # What was written and never read is lost with it.
        with contextlib.suppress(BrokenPipeError):
            stream.close()


@atexit.register
def kill_all():
    for program in STARTED:
        if program.poll() is None:
            kill(program)


def run_beside(words, **how):
    """Starts a program whose streams are pipes."""
    streams = dict.fromkeys(("stdin", "stdout", "stderr"), subprocess.PIPE)
    program = subprocess.Popen(words, text=True, **streams, **how)
    STARTED.append(program)
    return program


def start(folder, *words):
    """Starts a signer, without a pool where the words don't begin with one."""
    pool = [] if words[:1] == ("--pool",) else ["--pool", "0"]
    return run_beside([sys.executable, SIGNER, "--keys", folder, *pool, *words])


def ask(program, line):
    program.stdin.write(line + "\n")
    program.stdin.flush()
    return program.stdout.readline().rstrip("\n")


def end(program, status, message=""):
    program.stdin.close()
    program.wait()
    said = program.stderr.read()
    if program.returncode != status or message not in said or (status == 0 and said):
        fail(f"status {program.returncode} and {said!r}, expected {status} and {message!r}")


def want(pattern, text):
    found = re.fullmatch(pattern, text)
    if not found:
        fail(f"{text[:60]!r} is not of the form {pattern}")
    return found.groups()


def verify(key, digest, signature, status=0):
    """Lets openssl judge a signature."""
    for name, content in (("key", KEY_INFO + key), ("digest", digest), ("signature", signature)):
        with open(name, "wb") as file:
            file.write(bytes.fromhex(content))
    judged = subprocess.run(
        ["openssl", "pkeyutl", "-verify", "-pubin", "-inkey", "key", "-keyform", "DER", "-in", "digest",
         "-sigfile", "signature", "-pkeyopt", "digest:sha256"],
        capture_output=True,
    )
    if judged.returncode != status:
        fail(f"openssl ends with {judged.returncode}, expected {status}: {judged.stderr.decode()}")


def holds(program, path):
    """Whether the program has the file open."""
    opened = f"/proc/{program.pid}/fd"
    try:
        return os.path.abspath(path) in {os.path.realpath(os.path.join(opened, it)) for it in os.listdir(opened)}
    except FileNotFoundError:
        return False


def await_that(holds_now, what, seconds=120):
    ends = time.monotonic() + seconds
    while not holds_now():
        if time.monotonic() > ends:
            fail(f"{what}: not within {seconds} seconds")
        time.sleep(0.01)
