"""A command on a terminal on which a test types."""

import os
import pty
import select
import time


class Terminal:
    def __init__(self, command, folder):
        self._pid, self._end = pty.fork()
        if not self._pid:
            os.chdir(folder)
            os.execvpe(command[0], command, {"PATH": os.environ["PATH"], "TERM": "dumb", "PS1": "$ ", "HOME": str(folder)})
        self._shown = ""

    def type(self, text):
        self._shown = ""
        os.write(self._end, text.encode())

    def waits_for(self, text, seconds=60):
        """What the terminal has shown since the last input, once the text is shown."""
        last = time.monotonic() + seconds
        while text not in self._shown:
            if time.monotonic() > last:
                raise AssertionError(f"{text!r} is not in {self._shown!r}")
            if select.select([self._end], [], [], 0.1)[0]:
                self._shown += os.read(self._end, 4096).decode(errors="replace")
        return self._shown

    def close(self):
        os.close(self._end)
        os.waitpid(self._pid, 0)
