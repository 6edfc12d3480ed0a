"""What relying parties find of what is handed out: three of them by RRDP, one of them by rsync alone too."""
import json
import os
import shutil
import sys

TOP = os.path.dirname(os.path.dirname(os.path.dirname(os.path.abspath(__file__))))
sys.path[:0] = [os.path.join(TOP, "checks", "validators"), os.path.join(TOP, "checks")]
import parties  # noqa: E402
import repository  # noqa: E402
from serve import ByRsync  # noqa: E402

ONLINE = [parties.RpkiClient(), parties.Fort(), parties.OctoRpki(), ByRsync()]
REPOSITORY = "/var/lib/krill/krill-data/repo"


def looks(folder, listed):
    """The payloads that each finds, and what it complains of. The router's list is what rpki-client wrote."""
    exported, found = repository.read_exported(REPOSITORY), {}
    for party in ONLINE:
        at = os.path.join(folder, type(party).__name__)
        found[type(party).__name__] = parties.look_online(party, exported, at)
    at = os.path.join(folder, "RpkiClient", "out", "json")
    if os.path.exists(at):
        shutil.copy(at, f"{listed}.new")
        os.replace(f"{listed}.new", listed)
    return found


def payloads_of(origins):
    return {parties.payload_of_origin(it) for it in origins}


def serial():
    return repository.read_exported(REPOSITORY).serial


def read_json(text):
    return [json.loads(line) for line in text.splitlines()]
