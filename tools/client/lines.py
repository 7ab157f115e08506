#!/usr/bin/python3
r"""Makes a script from commands, and reads docd's output; sends commands to a docd that serves; or makes a file to be loaded.

Standard input has one command a line, as in docs/MANUAL.md. Empty lines and lines that begin with `#` are skipped. Values are
written as in the manual, as JSON or as extended JSON (tools/client/notation.py). A command that names no database is for `t`, or for
the one that `--db` names.

    printf '%s\n' '{insert: "c", documents: [{_id: 1, a: "x"}]}' '{find: "c"}' |
        tools/client/lines.py | ./docd run --hex | tools/client/lines.py --read
    tools/client/lines.py --port 27017 < examples/shop.txt

With a port each command is sent to 127.0.0.1 as soon as its line is read, and its reply is printed. A wrong line ends the tool.
At a terminal this is a prompt (tools/client/prompt) with history, completion by Tab, `help`, long replies over several lines, and the
meaning of each refusal. `--json` prints replies as extended JSON. `--watch` prints a view's rows, and again when they change:

    tools/client/lines.py --port 27017 --db fair --watch spent

A sign `>` before a command is skipped. In a script, `N>` before a command is its session; without it the session is 0. With
`--documents` each line is a document, and the documents' bytes are written one after the other, as `docd check` and `--load`
read them:

    printf '%s\n' '{_id: 1, a: "x"}' '{_id: 2}' | tools/client/lines.py --documents > two.bson
"""
import argparse
import json
import os
import struct
import sys

from extended_json import json_of
from model.messages import answer
from model.values import BsonFault, DOCUMENT, spelling
from notation import document_of, shown
from prompt.asking import Asker, NoDocd, command_of
from prompt.loop import Prompt, tell, width
from prompt.watching import Refused, watch
from spelled import message, script_lines

NO_WIDTH = sys.maxsize


def lines_of_command(number, line, database):
    """The script's lines for one command, whose requestID is the number."""
    session, fields = command_of(line, database)
    return [one.decode() for one in script_lines(session or 0, message(spelling(fields), number))]


def printed(fields, is_json):
    return json.dumps(json_of(DOCUMENT, fields)) if is_json else shown((DOCUMENT, fields))


def read(line, is_json=False):
    """A line of docd's output; if it is a reply, with the reply as a text."""
    session, _, rest = line.partition(" ")
    if rest.startswith(("closed", "end")):
        return line
    try:
        return "%s %s" % (session, printed(answer(bytes.fromhex(rest)), is_json))
    except (ValueError, BsonFault, struct.error):
        sys.exit("lines: --read reads the output of `docd run --hex`, which has no such line: " + line)


def carry_out(lines, action):
    """Does the action with each line that is neither empty nor a comment, and with its number among those. Ends the tool at a wrong
    line."""
    number = 0
    for place, line in enumerate(map(str.strip, lines), 1):
        if not line or line.startswith("#"):
            continue
        number += 1
        try:
            action(number, line)
        except ValueError as error:
            sys.exit("lines: line %d: %s" % (place, error))


def ask(given):
    """Asks a docd that serves."""
    asker = Asker(given.port, given.db, tell)
    if given.watch:
        return watch(asker, given.watch, given.every, width if sys.stdout.isatty() else lambda: NO_WIDTH, tell)
    if sys.stdin.isatty() and sys.stdout.isatty():
        return Prompt(asker, (lambda reply: printed(reply, True)) if given.json else None).run()
    return carry_out(sys.stdin, lambda _, line: print(printed(asker.reply_to(asker.fields_of(line)), given.json), flush=True))


def a_port(text):
    if not text.isdigit() or not 0 < int(text) < 65536:
        raise argparse.ArgumentTypeError("a port is a number from 1 to 65535; docd prints its own after `serving 127.0.0.1:`")
    return int(text)


def a_database(text):
    if not text or "." in text or "\0" in text:
        raise argparse.ArgumentTypeError("write a database's name without a dot")
    return text


def seconds(text):
    try:
        if 0.01 <= float(text) <= 1e6:
            return float(text)
    except ValueError:
        pass
    raise argparse.ArgumentTypeError("write a number of seconds, as 1 or 0.5")


def words():
    options = argparse.ArgumentParser(description=__doc__, formatter_class=argparse.RawDescriptionHelpFormatter)
    ways = options.add_mutually_exclusive_group()
    ways.add_argument("--read", action="store_true", help="read the output of `docd run --hex`")
    ways.add_argument("--port", type=a_port, help="send the commands to the docd that serves there")
    ways.add_argument("--documents", action="store_true", help="write the bytes of documents")
    options.add_argument("--db", type=a_database, default="t",
                         help="the database of commands that name none (default: t)")
    options.add_argument("--json", action="store_true", help="print replies as extended JSON")
    options.add_argument("--watch", metavar="VIEW", help="with --port: print a view's rows, and again when they change")
    options.add_argument("--every", type=seconds, default=1, metavar="SECONDS",
                         help="with --watch: the time between two reads (default: 1)")
    given = options.parse_args()
    if given.watch and not given.port:
        options.error("--watch needs --port: the port of a docd that serves")
    return given


def work(given):
    if given.read:
        for line in sys.stdin:
            print(read(line.rstrip("\n"), given.json))
    elif given.port:
        ask(given)
    elif given.documents:
        carry_out(sys.stdin, lambda _, line: sys.stdout.buffer.write(spelling(document_of(line))))
    else:
        carry_out(sys.stdin, lambda number, line: print(*lines_of_command(number, line, given.db), sep="\n", flush=True))


def main():
    given = words()
    try:
        work(given)
        sys.stdout.flush()
    except NoDocd as fault:
        sys.exit("lines: %s" % fault)
    except Refused as refused:
        sys.exit("lines: the find is refused: %s" % printed(refused.args[0], given.json))
    except UnicodeDecodeError:
        sys.exit("lines: standard input is not UTF-8 text")
    except BrokenPipeError:
        os.dup2(os.open(os.devnull, os.O_WRONLY), sys.stdout.fileno())  # nobody reads what is left
        sys.exit(1)
    except KeyboardInterrupt:
        print()
        sys.exit(0 if given.watch else 130)


if __name__ == "__main__":
    main()
