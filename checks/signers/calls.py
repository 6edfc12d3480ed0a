"""Krill's side of the lines over the signer's FIFOs: `test_signers`, which takes calls on standard input."""
import os, random, signal, time

from parts import CALLER, DIGEST, KEY, OTHER, POOL, ROUNDS, ask, fail, holds, kill, run_beside, start, verify, want


def serve_fifos(folder, path, caller=None):
    """Starts a signer over FIFOs. Where a program has both ends open, waits until the signer has them too."""
    program = start(folder, *POOL, "--fifos", path)
    ends = {os.path.abspath(path + end) for end in (".in", ".out")}
    while not all(os.path.exists(end) for end in ends):
        time.sleep(0.02)
    while caller and not all(holds(program, end) for end in ends):
        time.sleep(0.02)
    return program


def beside():
    """Krill's side: every call, then a signer that is killed between two calls and started again."""
    os.mkdir("beside")
    signer = serve_fifos("beside-keys", "beside/signer-0")
    caller = start_caller("beside")
    (key,) = want(KEY, ask(caller, "make 0"))
    (signature,) = want("([0-9a-f]{512})", ask(caller, f"sign 0 @0 {DIGEST}"))
    verify(key, DIGEST, signature)
    verify(key, OTHER, signature, 1)
    once_key, once = want(f"{KEY} ([0-9a-f]{{512}})", ask(caller, f"once 0 {OTHER}"))
    verify(once_key, OTHER, once)
    for call, expected in (
        (f"check {key} {DIGEST} {signature}", "yes"),
        (f"check {key} {OTHER} {signature}", "no"),
        (f"check {once_key} {OTHER} {once}", "yes"),
        (f"check {once_key} {DIGEST} {signature}", "no"),
    ):
        want(expected, ask(caller, call))
    signer.kill()
    signer.wait()
    want("signer 0 failed", ask(caller, f"sign 0 {key} {OTHER}"))
    signer = serve_fifos("beside-keys", "beside/signer-0", caller)
    (signature,) = want("([0-9a-f]{512})", ask(caller, f"sign 0 {key} {OTHER}"))
    verify(key, OTHER, signature)
    want("signer 0 failed", ask(caller, f"sign 0 {once_key} {OTHER}"))
    want("dropped", ask(caller, f"drop 0 {key}"))
    want("signer 0 failed", ask(caller, f"sign 0 {key} {OTHER}"))
    want("yes", ask(caller, f"check {key} {OTHER} {signature}"))
    caller.stdin.close()
    want("faults 3", caller.stdout.readline().rstrip("\n"))
    if caller.wait() or os.listdir("beside-keys"):
        fail(f"status {caller.returncode} and {os.listdir('beside-keys')} at the end of the calls")
    signer.terminate()
    signer.wait()


def start_caller(folder):
    return run_beside([CALLER, f"{folder}/signer-0.in", f"{folder}/signer-0.out"])


def call(caller, line):
    """An answer to a call, which is made again for some seconds: a signer may still leave an earlier caller."""
    for _ in range(200):
        answered = ask(caller, line)
        if answered != "signer 0 failed":
            return answered
        time.sleep(0.05)
    return answered


def signs_again(caller):
    """Makes a key and signs, and lets openssl judge both kinds of signatures."""
    (key,) = want(KEY, call(caller, "make 0"))
    (signature,) = want("([0-9a-f]{512})", ask(caller, f"sign 0 {key} {DIGEST}"))
    verify(key, DIGEST, signature)
    once_key, once = want(f"{KEY} ([0-9a-f]{{512}})", ask(caller, f"once 0 {OTHER}"))
    verify(once_key, OTHER, once)
    want("yes", ask(caller, f"check {key} {DIGEST} {signature}"))
    want("no", ask(caller, f"check {key} {OTHER} {signature}"))


def keep_asking(caller):
    """Calls until an end is gone. Standard output isn't read, so that kills come anywhere."""
    try:
        for turn in range(40):
            caller.stdin.write(("make 0\n", f"once 0 {DIGEST}\n")[turn % 2])
        caller.stdin.flush()
    except BrokenPipeError:
        pass


def kill_callers():
    """Callers are killed at random moments, and the next one is there at once."""
    os.mkdir("callers")
    signer = start("callers-keys", *POOL, "--fifos", "callers/signer-0")
    while not os.path.exists("callers/signer-0.out"):
        time.sleep(0.02)
    for _ in range(ROUNDS):
        caller = start_caller("callers")
        keep_asking(caller)
        time.sleep(random.uniform(0, 0.4))
        kill(caller)
        time.sleep(random.choice((0, 0, 0.001, 0.01, 0.1)))
        caller = start_caller("callers")
        signs_again(caller)
        kill(caller)
    kill(signer)


def kill_signers():
    """A signer is killed and started again under a running caller, sometimes with a request that it has not read."""
    os.mkdir("signers")
    signer = start("signers-keys", *POOL, "--fifos", "signers/signer-0")
    while not os.path.exists("signers/signer-0.out"):
        time.sleep(0.02)
    caller = start_caller("signers")
    signs_again(caller)
    for turn in range(ROUNDS):
        if turn % 3 == 0:
            signer.send_signal(signal.SIGSTOP)
        caller.stdin.write("make 0\n")
        caller.stdin.flush()
        time.sleep(random.uniform(0, 0.2))
        kill(signer)
        signer = serve_fifos("signers-keys", "signers/signer-0", caller)
        caller.stdout.readline()  # The call that was cut off, or answered just before.
        signs_again(caller)
    kill(caller)
    kill(signer)


def try_all():
    beside()
    kill_callers()
    kill_signers()
