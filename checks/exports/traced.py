"""The program, traced by ptrace(2): it stops before and behind each call of the system that it makes."""
import ctypes, os, select, signal, subprocess

from program import Run

TRACEME, CONTINUE, TO_NEXT_CALL = 0, 7, 24
LIBC = ctypes.CDLL(None, use_errno=True)
LIBC.ptrace.argtypes = ctypes.c_long, ctypes.c_long, ctypes.c_void_p, ctypes.c_void_p
LIBC.ptrace.restype = ctypes.c_long


class Untraceable(Exception):
    """This process may trace no other one."""


def trace(request, pid):
    if LIBC.ptrace(request, pid, None, None) == -1:
        raise Untraceable(os.strerror(ctypes.get_errno()))


class Traced:
    def __init__(self, place):
        """Starts the program, which runs on until it is held."""
        try:
            self.run = Run(place, preexec_fn=lambda: trace(TRACEME, 0))
        except subprocess.SubprocessError as error:
            raise Untraceable(str(error)) from None
        self.pid = self.run.program.pid
        self.wait()
        trace(CONTINUE, self.pid)

    def wait(self):
        _, status = os.waitpid(self.pid, 0)
        if not os.WIFSTOPPED(status):
            raise Untraceable(f"the program doesn't stop: {status}")

    def hold(self):
        """Stops the program, which waits for lines."""
        os.kill(self.pid, signal.SIGSTOP)
        self.wait()

    def step(self):
        """To its next stop."""
        trace(TO_NEXT_CALL, self.pid)
        self.wait()

    def replies_told(self):
        if select.select([self.run.program.stdout], [], [], 0)[0]:
            self.run.take()
        return self.run.count()

    def kill(self):
        os.kill(self.pid, signal.SIGKILL)
        os.waitpid(self.pid, 0)
        self.run.program.returncode = -signal.SIGKILL
        self.run.end()
