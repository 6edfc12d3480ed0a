"""What the trials share: the program, how its sessions are numbered, and how a trial fails."""
import atexit, os, random, re, signal, subprocess, sys

TURNS = int(sys.argv[1])
KRILLC = None if sys.argv[2] == "-" else os.path.abspath(sys.argv[2])
SEED = int(os.environ.get("SEED", 11))
DRAW = random.Random(SEED)
DATA = "krill-data"
# A wait for what never comes is given up behind so many seconds.
LONGEST = 300
# Every program that was started. None outlives the trials.
STARTED = []


def fail(text):
    sys.exit(f"checks/sessions: {text}")


def end_by_signal(number, _frame):
    """So that nothing is left behind: what is open is closed, and no program outlives this one."""
    sys.exit(128 + number)


for number in (signal.SIGHUP, signal.SIGTERM):
    signal.signal(number, end_by_signal)


@atexit.register
def kill_all():
    for program in STARTED:
        if program.poll() is None:
            program.kill()
            program.wait()


def numbers_of_files():
    """The numbers of the sessions that files may stand for, by `--help`; none where it has no word of them."""
    told = run(None, "--help").stdout
    found = [*map(int, re.findall(r"session-(\d)\.in", told))]
    return range(min(found), max(found) + 1) if found else range(0)


def run(folder, *words, lines=""):
    """krillc with these lines at its standard input, to its end."""
    try:
        return subprocess.run([KRILLC, *words], cwd=folder, input=lines, capture_output=True, text=True, timeout=LONGEST)
    except subprocess.TimeoutExpired:
        fail(f"krillc {' '.join(words)} hasn't ended within {LONGEST} seconds")


def start(folder, *words, **streams):
    program = subprocess.Popen([KRILLC, *words], cwd=folder, **{"stdin": subprocess.DEVNULL, "stdout": subprocess.DEVNULL,
                                                               "stderr": subprocess.DEVNULL, **streams})
    STARTED.append(program)
    return program
