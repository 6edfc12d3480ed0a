"""Kills the built program within its exports, and forbids it what an export does, over a real folder.

After each kill, and after each reply, the repository is read by Python's XML reader: the notification names only files
that stand, each with its hash, and every other file is whole and one that may be there. Meanwhile a thread reads it as a
relying party does. Nothing beside the repository's folder changes but the journals: its parents are compared too, and hold
files with names that an export could hit. Kills come at random moments, and behind calls of the system that a publication
makes, from its command's record over its own to its reply, where this process may trace another one. After each one the
store has the editions that were told, or one more, and the next run goes on with the same session. Then exports are forbidden something, as a user without rights: whatever
it is, no reply says that it was done.
Usage: python3 checks/exports PROGRAM KILLS, in a scratch folder that others may enter. KILLS is how often each way."""
import random, sys

# The folder stays as it is.
sys.dont_write_bytecode = True

from forbidden import try_all
from kills import at_calls, at_random
from place import Wrong
from traced import Untraceable


def kills_at_calls(kills):
    """What is told of the kills behind calls of the system."""
    try:
        count, tried = at_calls(kills)
    except Untraceable as error:
        return f"none at a call of the system, since no other process can be traced here ({error})"
    return f"{tried} at as many of {count} stops at calls of the system"


def main():
    kills = int(sys.argv[2])
    random.seed(11)
    try:
        undone, looks = at_random(kills)
        if undone < kills // 10 or not looks:
            raise Wrong(f"{undone} of {kills} kills came within a publication, and {looks} looks meanwhile")
        at_each = kills_at_calls(kills)
        bans = try_all()
    except Wrong as error:
        sys.exit(f"checks/exports: {error}")
    print(f"checks/exports: ok, {kills} kills at random moments, {undone} of them within a publication, {looks} looks "
          f"meanwhile; {at_each}; {bans} bans")


main()
