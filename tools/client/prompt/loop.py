"""The prompt: commands that are typed at a terminal, their replies, and help with both."""
import re
import shutil
import sys

from model.commands import COMMANDS
from model.values import INT32, TEXT
from notation import Unfinished, document_of, quotes
from prompt import telling
from prompt.asking import COMMAND, DATABASE
from prompt.completing import Names, candidates
from prompt.editing import Editing
from prompt.layout import Layout, batch_of
from prompt.watching import Refused, Watching, counted, tell_if_none

NARROWEST = 40
PROMPT, FURTHER = "> ", ".. "
COLUMN = re.compile(r"column (\d+): ")


def width():
    """How many characters a line of the terminal has."""
    return max(NARROWEST, shutil.get_terminal_size().columns)


def tell(text):
    print("lines: " + text, file=sys.stderr, flush=True)


class Prompt:
    """A dialogue with a docd that serves. `printed`, if it is given, writes a reply in another notation."""

    def __init__(self, asker, printed=None):
        self.asker, self.printed, self.names = asker, printed, Names()
        self.front, self.last, self.cursor, self.watching = "", None, None, None
        self.words = {"help": self.help, "use": self.use, "more": self.more, "whole": self.whole, "watch": self.watch}

    def run(self):
        """Carries out what is typed, until the prompt is ended."""
        self.asker.reply_to([(b"ping", (INT32, 1)), (DATABASE, (TEXT, b"t"))])
        print("docd at %s, database %s. Type help for the commands; Tab completes, Control-D ends." % (
            self.asker.address, self.asker.database))
        with Editing(self.completions):
            for text in iter(self.typed, None):
                try:
                    self.take(text)
                except ValueError as error:
                    tell_wrong(text, str(error))
                except Refused as refused:
                    self.watching = None
                    self.show([(b"find", (TEXT, b""))], refused.args[0])

    def typed(self):
        """The next command or word, which may have several lines; None at the end."""
        while True:
            try:
                text = input(PROMPT)
                while is_unfinished(text):
                    self.front = text + "\n"
                    line = input(FURTHER)
                    if not line.strip():
                        break
                    text += "\n" + line
                return None if text.strip() in ("exit", "quit") else text
            except KeyboardInterrupt:
                print("\n(Control-D ends)")
            except EOFError:
                print()
                return None
            finally:
                self.front = ""

    def take(self, text):
        if not text.strip() or text.lstrip().startswith("#"):
            return
        word, _, rest = text.strip().partition(" ")
        if word in self.words:
            self.words[word](rest.strip())
        elif not COMMAND.fullmatch(text)[2].startswith("{"):
            raise ValueError(telling.hint_at(text))
        else:
            self.ask(self.asker.fields_of(text))

    def ask(self, fields):
        try:
            reply = self.asker.reply_to(fields)
        except KeyboardInterrupt:
            tell("docd goes on with this command to its end, and all other connections wait for it")
            raise
        self.names.learn(fields, reply)
        self.show(fields, reply)
        if self.watching:
            self.say(self.watching.look(self.asker, width()))

    def show(self, fields, reply):
        """Prints a reply, and below it notes on its rows and on what its refusals mean."""
        self.last = reply
        self.say([self.printed(reply) if self.printed else self.laid_out(reply), *self.rows_told(reply),
                  *telling.refusal_lines(fields, reply, width())])

    def laid_out(self, reply, is_whole=False):
        layout = Layout(width(), is_whole)
        text = layout.reply(reply)
        return text + ("\n# the reply is shortened: type whole to see all of it" if layout.has_cut else "")

    def rows_told(self, reply):
        """How many rows a batch has, if they are in lines of their own or more are left, and how to get the next ones."""
        if batch := batch_of(reply):
            rows, cursor = batch
            self.cursor = self.more_of(reply, cursor) if cursor[1] else None
            if self.cursor:
                yield "# %s, and there are more: type more, or {getMore: %dL, collection: %s}" % (
                    counted(rows), cursor[1], quotes(self.cursor[1][1][1]))
            elif "\n" in self.laid_out(reply):
                yield "# " + counted(rows)

    def more_of(self, reply, cursor):
        """The command that returns the next rows."""
        database, _, name = dict(dict(reply)[b"cursor"][1])[b"ns"][1].partition(b".")
        return [(b"getMore", cursor), (b"collection", (TEXT, name)), (b"batchSize", (INT32, telling.MORE)),
                (DATABASE, (TEXT, database))]

    def say(self, lines):
        if lines:
            print(*lines, sep="\n", flush=True)

    def help(self, topic):
        self.say(telling.help_of(topic, width()))

    def use(self, name):
        if not name or "." in name:
            raise ValueError("write use and a database's name, which has no dot: use fair")
        self.asker.database, self.watching = name, None
        self.say(["commands that name no database are now for %s" % name])

    def more(self, _):
        if not self.cursor:
            raise ValueError("the last reply has no more rows")
        self.ask(self.cursor)

    def whole(self, _):
        if not self.last:
            raise ValueError("there is no reply yet: type a command first")
        self.say([self.laid_out(self.last, is_whole=True)])

    def watch(self, name):
        self.watching = Watching(name.strip('"')) if name else None
        if self.watching:
            tell_if_none(self.asker, self.watching.view, tell)
            self.say(self.watching.look(self.asker, width()))

    def completions(self, text, word):
        """The completions of a word after the text of a line."""
        text = self.front + text
        first, _, rest = text.lstrip().partition(" ")
        known = self.names.of(self.asker.database)
        if first == "help" and " " in text.lstrip():
            return [name.decode() for name in COMMANDS if name.decode().startswith(word)]
        if first == "watch" and " " in text.lstrip():
            return [name for name in known if name.startswith(word)]
        if not text.strip():
            return [one for one in ("{", *sorted(self.words), "exit") if one.startswith(word)]
        return candidates(text, word, known)


def is_unfinished(text):
    """Whether a command has to go on in another line."""
    body = COMMAND.fullmatch(text)[2]
    if not body.startswith("{"):
        return False
    try:
        document_of(body)
    except Unfinished:
        return True
    except ValueError:
        pass
    return False


def tell_wrong(text, error):
    """Reports what can't be read, with a mark under its place if the text is one line, and the place is within the width."""
    found = COLUMN.match(error)
    if found and "\n" not in text and len(PROMPT) + int(found[1]) < width():
        print(" " * (len(PROMPT) + int(found[1]) - 1) + "^", file=sys.stderr)
    tell(error)
