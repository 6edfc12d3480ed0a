"""Tries signer/krill-signer: what it answers, what openssl says of it, what outlives a kill, and what it refuses; Krill's
own side of the lines with it, where a second program is named: crates/test_signers over the signer's FIFOs; and krillc
beside signers, where a third one is.

Krill's side and signers are killed in turn, ROUNDS times each, at random moments, and started again.

Usage: python3 checks/signers ROUNDS SIGNER TEST_SIGNERS KRILLC, in a scratch folder. '-' stands for a program that isn't
there."""
import sys

# The folder stays as it is.
sys.dont_write_bytecode = True

import alone, calls, daemon, kills, together
from parts import CALLER, KRILLC, ROUNDS


def main():
    made, said = alone.try_all(), []
    if CALLER:
        calls.try_all()
        said.append(f"Krill's side met it, {ROUNDS} kills of each")
    if KRILLC:
        said += [f"krillc: {daemon.try_all()}", together.try_all()]
        said.append(f"krillc and two signers, {ROUNDS} kills of each side: {kills.kill_publications()}")
    tried = "; ".join([f"{made} keys outlived kills", *said])
    print(f"checks/signer: ok ({tried})")


main()
