"""Signers that are played: their keys lie with one krill-signer, so that each answer is right."""
import threading

from parts import ask, kill, start


class Keeper:
    """A krill-signer on its standard input and output, which several played signers ask in turn."""

    def __init__(self, folder):
        self.program = start(folder)
        self.lock = threading.Lock()

    def answer(self, line):
        """Its answer to a line, with its line feed."""
        with self.lock:
            return ask(self.program, line.decode().rstrip("\n")).encode() + b"\n"

    def end(self):
        kill(self.program)
