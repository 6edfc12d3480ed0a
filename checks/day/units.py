"""Runs what systemd's units say, in its place: user, groups, environment, folders and the line that is started. What
hardens a unit isn't done here."""
import grp
import os
import pwd
import shlex
import string
import subprocess

FOLDER = "/lib/systemd/system"
NAMES = ("ExecStart", "User", "Group", "UMask", "WorkingDirectory", "StateDirectory", "StateDirectoryMode")


class Unit:
    """A unit, as krill-signer@0."""

    def __init__(self, name):
        self.name = name
        kind, at, instance = name.partition("@")
        with open(os.path.join(FOLDER, f"{kind}{at}.service"), encoding="utf-8") as file:
            lines = [line.strip().replace("%i", instance).partition("=") for line in file if "=" in line and line[0] != "#"]
        self.said = {key: value for key, _, value in lines if key in NAMES}
        self.asserted = [value for key, _, value in lines if key == "AssertPathExists"]
        self.environment = {"PATH": "/usr/sbin:/usr/bin:/sbin:/bin", "LC_ALL": "C.UTF-8"}
        for key, _, value in lines:
            if key == "Environment":
                self.environment |= dict([value.split("=", 1)])
            elif key == "EnvironmentFile":
                self.environment |= read_environment(value)

    def start(self, **environment):
        """Starts it, with these variables beside its own."""
        missing = [path for path in self.asserted if not os.path.exists(path)]
        if missing:
            raise OSError(f"{self.name}: {missing[0]} isn't there")
        user, group = pwd.getpwnam(self.said["User"]), grp.getgrnam(self.said["Group"])
        if "StateDirectory" in self.said:
            folder = os.path.join("/var/lib", self.said["StateDirectory"])
            os.makedirs(folder, exist_ok=True)
            os.chmod(folder, int(self.said["StateDirectoryMode"], 8))
            os.chown(folder, user.pw_uid, group.gr_gid)
        variables = {**self.environment, **environment}
        words = [string.Template(word).safe_substitute(variables) for word in shlex.split(self.said["ExecStart"])]
        return subprocess.Popen(
            words, cwd=self.said.get("WorkingDirectory", "/"), env=variables, stdin=subprocess.DEVNULL,
            stdout=subprocess.PIPE, stderr=subprocess.STDOUT, text=True, umask=int(self.said["UMask"], 8),
            user=user.pw_uid, group=group.gr_gid, extra_groups=os.getgrouplist(user.pw_name, group.gr_gid))

    def run(self, **environment):
        """Starts it and waits for its end: its status, and what it said."""
        process = self.start(**environment)
        said, _ = process.communicate(timeout=1800)
        return process.returncode, said


def read_environment(name):
    with open(name, encoding="utf-8") as file:
        lines = [line.strip().partition("=") for line in file if line[0] not in "#\n"]
    return {key: value for key, _, value in lines}
