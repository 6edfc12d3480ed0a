"""Where the day is played: namespaces of its own, and a copy of the machine's files over which it writes, in memory."""
import os
import shutil
import subprocess

PLAYER = "--player"


class Failed(Exception):
    """Why the day can't go on."""


def run(*words, **options):
    """Runs a program that has to end well. What it wrote on standard output."""
    ran = subprocess.run(words, stdin=subprocess.DEVNULL, capture_output=True, text=True, check=False, **options)
    if ran.returncode:
        raise Failed(f"{' '.join(words)}: status {ran.returncode}: {ran.stdout}{ran.stderr}")
    return ran.stdout


def in_namespaces(words):
    """Goes on as this program in namespaces that end with it and with all that it started."""
    os.execvp("unshare", ["unshare", "--net", "--mount", "--pid", "--fork", "--kill-child", "--propagation", "private", *words])


def mount(kind, at, *words):
    os.makedirs(at, exist_ok=True)
    run("mount", "-t", kind, *words, kind, at)


def enter_copy(package):
    """A root whose files are the machine's, and whose changes go with it; the package stands in its /run."""
    base = "/mnt"
    mount("tmpfs", base, "-o", "size=2g,mode=755")
    for name in ("upper", "work", "root"):
        os.mkdir(os.path.join(base, name))
    root = os.path.join(base, "root")
    mount("overlay", root, "-o", f"lowerdir=/,upperdir={base}/upper,workdir={base}/work")
    run("mount", "--rbind", "/dev", f"{root}/dev")
    mount("proc", f"{root}/proc")
    mount("sysfs", f"{root}/sys")
    for name in ("run", "tmp", "var/lib/krill"):
        mount("tmpfs", os.path.join(root, name), "-o", "mode=1777" if name == "tmp" else "mode=755")
    shutil.copy(package, os.path.join(root, "run"))
    os.chroot(root)
    os.chdir("/")
    run("mount", "--make-private", "/run")


def resize_disk(size):
    """The store lies on a disk of its own, of so many bytes."""
    run("mount", "-o", f"remount,size={size}", "/var/lib/krill")
