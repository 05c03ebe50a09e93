"""Read by Python before `rt ci` starts, where bench/gate.py asks for it: writes down what each command that rt waits for has cost.

A line for each: the crate, what was done (proof, tests, edits or other) and the processor seconds that the system counts for it.
"""
import os
import subprocess

if "GATE_SECONDS" in os.environ:
    LOG = os.open(os.environ["GATE_SECONDS"], os.O_WRONLY | os.O_APPEND | os.O_CREAT, 0o644)

    def kind(words, where):
        """The crate and what a command does for it."""
        if "--crate-name" not in words:
            return "-", "other"
        crate = words[words.index("--crate-name") + 1]
        if "rt-edit" in str(where):
            return crate, "edits"
        return crate, "tests" if "--test" in words else "proof"

    class Counted(subprocess.Popen):
        """A command whose processor seconds are written down when it has ended."""

        def __init__(self, *given, **how):
            self.where = how.get("cwd")
            super().__init__(*given, **how)

        def _try_wait(self, flags):
            try:
                ended, status, used = os.wait4(self.pid, flags)
            except ChildProcessError:
                return self.pid, 0
            if ended == self.pid:
                words = [str(it) for it in self.args] if isinstance(self.args, (list, tuple)) else [str(self.args)]
                crate, done = kind(words, self.where)
                os.write(LOG, f"{crate} {done} {used.ru_utime + used.ru_stime:.2f} {self.where or '-'}\n".encode())
            return ended, status

    subprocess.Popen = Counted
