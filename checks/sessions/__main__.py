"""Sessions over one store, by a judge from outside (judge.py).

First the judge is tried: it finds nothing in runs of a program that is right, which is played (played.py), and each fault
that is planted in them, and each program that is made wrong (planted.py). Then krillc is tried: what stands in a session's
place, and what clients do (ends.py); two sessions that need each other (meeting.py); what is put there while it starts
(swaps.py); and sessions of random lines at files and FIFOs, with publications, kills and reopenings (trials.py).

Usage: python3 checks/sessions TURNS PROGRAM, in a scratch folder. '-' stands for a program that isn't there."""
import os, random, sys

# The folder stays as it is.
sys.dont_write_bytecode = True

from parts import KRILLC, SEED, TURNS, fail, numbers_of_files
import planted

# Runs of the judge's trials, by their seeds.
RIGHT, PLANTED, WRONG = range(8), range(100, 106), range(200, 204)


def try_judge():
    missed, told = planted.try_right(RIGHT)
    missed += planted.try_faults(random.Random(SEED), PLANTED)
    missed += planted.try_programs(WRONG)
    for it in missed:
        print(f"checks/sessions: the judge: {it}")
    if missed:
        fail("the judge isn't to be trusted")
    return f"the judge found nothing in {told}, and {len(planted.FAULTS)} faults and {len(planted.PROGRAMS)} wrong programs"


def main():
    if TURNS < 1:
        fail("no turns: nothing would be tried")
    told = try_judge()
    if KRILLC is None:
        print(f"checks/sessions: krillc isn't built: it isn't tried; {told}")
        return
    if not numbers_of_files():
        fail("krillc --help names no files of sessions")
    import ends, meeting, swaps, trials
    cases = ends.try_ends()
    met = meeting.try_meeting("meeting")
    swapped, turns = swaps.try_swaps(), trials.try_turns()
    unasked = "" if os.geteuid() else "; files without permission aren't tried: root may open any"
    print(f"checks/sessions: ok, {cases} cases of files and FIFOs; {met} commands of two sessions that need each other; "
          f"{swapped}; {turns}{unasked}; {told}")


main()
