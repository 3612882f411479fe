"""What the gate's Python programs share: where the repository is, how a command runs, and how checks are counted."""

import os
import signal
import subprocess
from pathlib import Path

TOP = Path(__file__).resolve().parent.parent


def run(*words, seconds=None, **how):
    """Runs a command in a process group of its own, and returns its status and what it printed. The status is None if
    it takes more than so many seconds, and then the whole group is killed."""
    pipes = {"stdin": subprocess.DEVNULL, "stdout": subprocess.PIPE, "stderr": subprocess.STDOUT, "text": True}
    with subprocess.Popen([str(it) for it in words], start_new_session=True, errors="replace", **pipes | how) as process:
        try:
            said, _ = process.communicate(timeout=seconds)
            return process.returncode, said
        except subprocess.TimeoutExpired:
            return None, ""
        finally:
            if process.returncode is None:
                os.killpg(process.pid, signal.SIGKILL)


class Report:
    """The report of a program. Its lines begin with the name of the program."""

    def __init__(self, part):
        self.part, self.passed, self.failed = part, 0, 0

    def add(self, what, why=None):
        """Counts a case. It failed if a reason is given."""
        self.passed, self.failed = self.passed + (why is None), self.failed + (why is not None)
        if why is not None:
            print(f"{self.part}: {what}: {why}", flush=True)

    def check(self, is_well, what, why="it doesn't hold"):
        """Counts a case by whether all is well. If it isn't, `why` says more."""
        self.add(what, None if is_well else why)

    def end(self):
        """Prints the counts, and returns the exit status. A program that tried nothing fails too."""
        print(f"{self.passed} passed, {self.failed} failed")
        return int(self.failed > 0 or self.passed == 0)
