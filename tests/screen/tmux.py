"""A terminal of tmux with a shell, to run the screen in and to read it."""
import os
import shlex
import subprocess
import time

import picture

# A condition may take as long as .ci/tests lets a script run, less a minute for reporting what did not happen.
END = time.monotonic() + float(os.environ.get("SCRIPT_SECONDS", "inf")) - 60


class Failed(Exception):
    """A condition was not met in time."""


def wait(what, terminal=None):
    """Pauses in a wait for this."""
    if time.monotonic() > END:
        raise Failed(f"{what} does not come" + ("; there stands:\n" + "\n".join(terminal.lines()) if terminal else ""))
    time.sleep(0.04)


class Terminal:
    """A terminal of tmux, with a shell in which n2k is on the PATH."""

    count = 0

    def __init__(self, room, columns=80, rows=24, term="tmux-256color", **more):
        Terminal.count += 1
        self.socket = str(room / f"tmux-{Terminal.count}")
        told = {"PS1": "$ ", "TZ": "UTC", "LC_ALL": "C.UTF-8", "TERM": term, "HISTFILE": "", "PATH": f"{room}/bin:{os.environ['PATH']}",
                "N2K_INTERFACES": str(room / "net"), **more}
        words = [f"{name}={value}" for name, value in told.items()]
        self.tmux("new-session", "-d", "-x", str(columns), "-y", str(rows), shlex.join(["env", *words, "bash", "--norc", "--noprofile", "-i"]))
        self.columns = columns
        self.until(lambda it: it.line(0) == "$", "a shell")

    def __enter__(self):
        return self

    def __exit__(self, *_):
        subprocess.run(["tmux", "-S", self.socket, "kill-server"], stderr=subprocess.DEVNULL)

    def tmux(self, *words):
        return subprocess.run(["tmux", "-S", self.socket, "-f", "/dev/null", *words], stdout=subprocess.PIPE, stderr=subprocess.PIPE, check=True, encoding="utf-8").stdout

    def shown(self, *how):
        """The text on the screen. A picture is drawn from the first row to the last, where the hidden cursor stays:
        then it is complete."""
        while True:
            at, _, text = self.tmux("display-message", "-p", "#{cursor_flag} #{cursor_y} #{pane_height}", ";", "capture-pane", "-p", *how).partition("\n")
            flag, row, height = map(int, at.split())
            if flag or row == height - 1:
                return text
            wait("a whole picture")

    def lines(self):
        return [it.rstrip() for it in self.shown().split("\n")[:-1]]

    def line(self, at):
        return self.lines()[at]

    def last(self):
        """The last line that is not empty."""
        return next((it for it in reversed(self.lines()) if it), "")

    def pieces(self):
        """The screen with its looks: the runs of each line."""
        found, pen = [], {}
        for line in self.shown("-e", "-N").split("\n"):
            pieces, pen = picture.runs(line, pen)
            found.append(pieces)
        return found

    def has(self, text):
        return any(text in it for it in self.lines())

    def keys(self, *names):
        self.tmux("send-keys", *names)

    def type(self, text):
        self.tmux("send-keys", "-l", text)

    def run(self, command):
        self.type(command)
        self.keys("Enter")

    def until(self, condition, what):
        """Waits until the condition holds."""
        while True:
            try:
                if found := condition(self):
                    return found
            except (IndexError, TypeError):
                # It does not exist yet.
                pass
            wait(what, self)

    def see(self, text):
        self.until(lambda it: it.has(text), repr(text))

    def ended(self):
        """Waits for the picture of a log that has ended."""
        self.see("ENDED")

    def state(self):
        """The state that a program may leave in a terminal."""
        return self.tmux("display-message", "-p", "alternate #{alternate_on} cursor #{cursor_flag} keypad #{keypad_flag}#{keypad_cursor_flag} "
                         "insert #{insert_flag} wrap #{wrap_flag} mouse #{mouse_any_flag}").strip()

    def settings(self):
        """The output of stty in the shell."""
        self.run("clear; stty -g; echo said")
        self.until(lambda it: "said" in it.lines(), "what stty says")
        return self.line(0)


def processes(text, room, of=None):
    """The processes whose command line contains this text, and whose environment is from a terminal of this room: of
    all terminals, or of one."""
    found = []
    for process in map(int, [of] if of else filter(str.isdigit, os.listdir("/proc"))):
        try:
            words, told = (open(f"/proc/{process}/{it}", "rb").read().replace(b"\0", b" ").decode("utf-8", "replace") for it in ("cmdline", "environ"))
        except OSError:
            # It has ended.
            continue
        if text in words and f"N2K_INTERFACES={room}/" in told:
            found.append(process)
    return found
