"""Editing of what is typed: history, and completion by Tab, if Python has readline.

The history is kept in a file in the user's own home, which nobody else can read; if there is no such home, only while the prompt
runs.
"""
import os

try:
    import readline
except ImportError:
    readline = None

HISTORY = ".lofgrim_history"
MOST = 1_000  # lines that are kept
DELIMITERS = ' \t\n{}[](),:"'


def history_file():
    """The path of the file with the history; None if the home isn't the user's own folder."""
    home = os.path.expanduser("~")
    try:
        return os.path.join(home, HISTORY) if os.stat(home).st_uid == os.getuid() else None
    except OSError:
        return None


class Editing:
    """While it is entered, input() has a history, and completes a word after a text by what `completions` returns for them."""

    def __init__(self, completions):
        self.completions, self.found, self.file = completions, [], history_file()

    def __enter__(self):
        if readline:
            is_libedit = "libedit" in (readline.__doc__ or "")
            readline.parse_and_bind("bind ^I rl_complete" if is_libedit else "tab: complete")
            readline.set_completer_delims(DELIMITERS)
            readline.set_completer(self.complete)
            readline.set_history_length(MOST)
            self.keep(readline.read_history_file)

    def __exit__(self, *_):
        if readline:
            readline.set_completer(None)
            self.keep(self.write)

    def keep(self, action):
        try:
            if self.file:
                action(self.file)
        except OSError:
            pass

    def write(self, path):
        os.close(os.open(path, os.O_CREAT | os.O_WRONLY, 0o600))
        readline.write_history_file(path)

    def complete(self, word, state):
        if state == 0:
            self.found = self.completions(readline.get_line_buffer()[:readline.get_begidx()], word)
        return self.found[state] if state < len(self.found) else None
