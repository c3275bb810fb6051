"""The terminal: its locale, colours, keys and output."""
import curses
import fcntl
import locale
import os
import sys
import unicodedata

# What stands for the signs of the views where the terminal's encoding lacks them.
PLAIN = str.maketrans({"–": "-", "°": " ", "′": "'", "…": "~", "’": "'"})


def cut(text, width):
    """A text cut to a number of columns, with a space for each control character."""
    if width < 1:
        return ""
    if text.isascii() and text.isprintable():
        return text if len(text) <= width else text[:width - 1] + "…"
    kept, used = [], 0
    for sign in text:
        if not sign.isprintable():
            sign = " "
        wide = 0 if unicodedata.category(sign) in ("Mn", "Me") else 2 if unicodedata.east_asian_width(sign) in "WF" else 1
        if used + wide > width:
            while kept and used + 1 > width:
                used -= 2 if unicodedata.east_asian_width(kept.pop()) in "WF" else 1
            kept.append("…")
            break
        kept.append(sign)
        used += wide
    return "".join(kept)


class Screen:
    """The terminal."""

    def __init__(self, encoding):
        self.window = None
        self.encoding = None if encoding.upper().replace("-", "") == "UTF8" else encoding

    def begin(self):
        self.window = curses.initscr()
        curses.noecho()
        curses.cbreak()
        self.window.keypad(True)
        self.window.nodelay(True)
        try:
            curses.curs_set(0)
        except curses.error:
            pass
        self.styles = {"plain": curses.A_NORMAL, "dim": curses.A_DIM, "title": curses.A_BOLD, "head": curses.A_DIM | curses.A_UNDERLINE, "fresh": curses.A_BOLD,
                       "alarm": curses.A_BOLD, "tab": curses.A_REVERSE | curses.A_BOLD, "note": curses.A_REVERSE, "key": curses.A_BOLD}
        if not os.environ.get("NO_COLOR") and curses.has_colors():
            curses.start_color()
            try:
                curses.use_default_colors()
                # Those that can be read on white and on black: of 256 middle tones, of 8 the two that are neither light nor dark.
                blue, green, red = (32, 29, 167) if curses.COLORS >= 256 else (-1, curses.COLOR_MAGENTA, curses.COLOR_RED)
                for number, colour in enumerate((blue, green, red), 1):
                    curses.init_pair(number, colour, -1)
                for style, pair in (("title", 1), ("key", 1), ("fresh", 2), ("alarm", 3)):
                    self.styles[style] |= curses.color_pair(pair)
            except curses.error:
                pass

    def end(self):
        if self.window and not curses.isendwin():
            curses.endwin()

    def size(self):
        """The current rows and columns of the terminal."""
        columns, rows = os.get_terminal_size(1)
        if (rows, columns) != self.window.getmaxyx() and rows > 0 and columns > 0:
            curses.resizeterm(rows, columns)
            self.window.clear()
        return self.window.getmaxyx()

    def key(self):
        """A pressed key: a character, or the number of a key without one; None if no key is left."""
        try:
            return self.window.get_wch()
        except curses.error:
            return None

    def put(self, row, pieces, style=None):
        """Puts the pieces of a row: column, text, style. Each ends before the next begins."""
        rows, columns = self.window.getmaxyx()
        if not 0 <= row < rows:
            return
        for at, (column, text, its) in enumerate(pieces):
            after = pieces[at + 1][0] - 1 if at + 1 < len(pieces) else columns
            text = cut(text, min(after, columns) - column)
            if self.encoding:
                text = text.translate(PLAIN).encode(self.encoding, "replace").decode(self.encoding)
            if column < columns and text:
                try:
                    self.window.addstr(row, column, text, self.styles[style or its])
                except curses.error:
                    # The last column of the last row.
                    pass


def fail(status, text):
    print(f"live: {text}", file=sys.stderr)
    sys.exit(status)


def take_terminal():
    """Makes the terminal standard input; returns the new number of the log."""
    if not os.isatty(1):
        fail(2, "it needs the whole screen, but standard output is not a terminal; recipes/last.jq prints the last values")
    if os.isatty(0):
        fail(2, "no log on standard input: try candump -L can0 | n2k --live")
    try:
        curses.setupterm(fd=1)
        is_able = curses.tigetstr("cup") is not None
    except curses.error:
        is_able = False
    if not is_able:
        fail(2, f"unknown terminal {os.environ.get('TERM') or 'without a name'}: try TERM=xterm-256color before the command")
    log = os.dup(0)
    # It mostly is open for both ways. Its file may belong to another user, as behind su.
    if fcntl.fcntl(1, fcntl.F_GETFL) & (os.O_WRONLY | os.O_RDWR) == os.O_RDWR:
        os.dup2(1, 0)
    else:
        terminal = os.open(os.ttyname(1), os.O_RDWR)
        os.dup2(terminal, 0)
        os.close(terminal)
    return log


def set_locale():
    """The encoding of the terminal: that of the locale, or UTF-8 if it names none, as in Python itself."""
    try:
        locale.setlocale(locale.LC_ALL, "")
    except locale.Error:
        pass
    if (locale.setlocale(locale.LC_CTYPE) or "C") in ("C", "POSIX"):
        for name in ("C.UTF-8", "C.utf8", "en_US.UTF-8"):
            try:
                locale.setlocale(locale.LC_CTYPE, name)
                break
            except locale.Error:
                pass
    return locale.nl_langinfo(locale.CODESET)
