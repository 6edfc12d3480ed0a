"""What the environment sets, and where it doesn't, the file that the service's units read too."""
import os

FILE = "/etc/default/krill"
NAMES = ("KRILL_STORE", "KRILL_PROGRAM", "KRILL_RSYNC", "KRILL_RRDP", "KRILL_CLOCK_BEHIND")


def of_file(name):
    """The settings of a file with lines NAME=VALUE, as systemd reads them. Lines that set nothing known are passed over."""
    try:
        with open(name, encoding="utf-8") as file:
            lines = [line.strip().partition("=") for line in file]
    except OSError:
        return {}
    return {key: value.strip().strip("\"'") for key, _, value in lines if key in NAMES and value}


def settings():
    found = of_file(os.environ.get("KRILL_SETTINGS", FILE))
    return found | {key: os.environ[key] for key in NAMES if os.environ.get(key)}
