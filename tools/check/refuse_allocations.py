#!/usr/bin/python3
"""Makes each of docd's allocations fail in turn, and checks that every reply is one that is allowed then.

Needs the kit and the built program (`./docd run < /dev/null` builds one). docd runs each script of `tools/check/refused_scripts.py`
again and again, with the first, second, .. request for memory refused, until a run meets no refusal. What a run prints must be
what the model of `tools/check/machine.py` prints, except that running out of memory may show in one of these ways:

- the script ends with `docd: no memory`, and what was printed before is right;
- a command is refused with code 900 and changes nothing;
- a write ends at a statement with a write error of code 900, whose `done` says how many of that statement's changes were
  made, fewer than all, and what the statements before it did remains;
- a session is closed with 6: its last command has ended in one of these ways, or as usual;
- a view is stale after a write, as viewStats reports, and is recomputed before it is read. So are the views that read such a view.
  A drop may make all views stale that read the dropped collection.

The finds of a later session show the state then: each view next to an aggregate of its pipeline, and each index next to a
scan. In a run that meets no refusal every view is live at the end.

If a refusal makes a view stale, each later request is refused as well, in turn, so those for recomputing the view are refused
too. If memory runs out while a view is recomputed for a read, it may stay stale. A view that was recomputed stays live if the
command is then refused.

    python3 tools/check/refuse_allocations.py
    python3 tools/check/refuse_allocations.py --scripts "index,cursor"
    python3 tools/check/refuse_allocations.py --part 1/4          the first, fifth, .. script
"""
import argparse
import copy
import sys
from collections import Counter, namedtuple

import folders  # noqa: F401
from model import messages
from model.commands import execute
from model.refusals import WANT_OF_MEMORY, refused
from model.store import Store
from model.values import ARRAY, read_document
from model.writes import NoSuchCut, WRITES
from program import named, parsed
from refused_scripts import End, SCRIPTS, body, lines
from refusing import Refusing

MOST_CHANGES = 10  # more than a statement of these scripts makes


def without_memory(store, usual, step):
    """How a command may end if memory runs out, instead of as usual: the reply, and the store then. A command that is refused may
    have recomputed views, older ones first, and nothing else."""
    yield refused(WANT_OF_MEMORY), store
    after = store
    for place, view in store.views.items():
        if not view.is_live and place in usual.views and usual.views[place].is_live:
            after = copy.deepcopy(after)
            after.refresh(place)
            yield refused(WANT_OF_MEMORY), after
    fields = read_document(body(step))
    list_name, _ = WRITES.get(fields[0][0], (None, None))
    for index in range(len(dict(fields).get(list_name, (ARRAY, []))[1])):
        for done in range(MOST_CHANGES):
            after = copy.deepcopy(store)
            try:
                yield execute(after, body(step), (index, done), step.session), after
            except NoSuchCut:
                break


def without_rows(store, after, step):
    """The stores after a command in which one view ran out of memory for a change, or after a drop that ran out of memory for
    passing on the removal of a document, so that no view that the removal reaches has rows."""
    taken = [place for place, view in after.views.items()
             if place in store.views and store.views[place].is_live and store.views[place].ticks != view.ticks]
    for places in [[place] for place in taken] + [taken] * (read_document(body(step))[0][0] == b"drop"):
        other = copy.deepcopy(after)
        for place in places:
            lose(other, place)
        yield other


def lose(store, place):
    """Makes a view stale, and each view that reads it."""
    view = store.views[place]
    if view.is_live:
        view.lose()
        for name, other in store.views.items():
            if place in other.reads:
                lose(store, name)


# An outcome of a command: its reply, the store then, whether it was refused or cut because memory ran out, and how often memory
# ran out.
Outcome = namedtuple("Outcome", "reply after is_refused wants")


def outcomes(store, step, wants):
    """The outcomes that a command may have if memory runs out this often at most."""
    usual = copy.deepcopy(store)
    reply = execute(usual, body(step), session=step.session)
    yield Outcome(reply, usual, False, 0)
    if wants:
        once = [Outcome(reply, other, False, 1) for other in without_rows(store, usual, step)]
        once += [Outcome(*end, True, 1) for end in without_memory(store, usual, step)]
        yield from once
    if wants > 1:
        for one in once:
            for other in without_rows(store, one.after, step):
                yield one._replace(after=other, wants=2)


def fits(steps, said, store, is_cut, wants):
    """Whether the lines are what the steps may print, if the script is cut or runs to its end, and memory runs out this often
    at most."""
    if not said and is_cut and wants:
        return True
    if not steps:
        return not said and not is_cut
    step, rest = steps[0], steps[1:]
    if isinstance(step, End):
        after = copy.deepcopy(store)
        after.cursors.end(step.session)
        return said[:1] == [b"%d end 0" % step.session] and fits(rest, said[1:], after, is_cut, wants)
    for one in outcomes(store, step, wants):
        line = [b"%d %s" % (step.session, messages.message(7, one.reply).hex().encode())] * (not step.flags & 2)
        # If no reply is sent, only the end of the session shows that a command was refused because memory ran out.
        is_told = not one.is_refused or not step.flags & 2
        if is_told and said[:len(line)] == line and fits(rest, said[len(line):], one.after, is_cut, wants - one.wants):
            return True
        if wants and said[:1] == [b"%d closed 6" % step.session]:
            later = [other for place, other in enumerate(rest)
                     if other.session != step.session or End(step.session) in rest[:place + 1]]
            if fits(later, said[1:], one.after, is_cut, wants - max(1, one.wants)):
                return True
    return False


class Trial:
    """A script whose requests are refused in turn, and how running out of memory showed."""

    def __init__(self, docd, name, steps):
        self.docd, self.name, self.steps = docd, name, steps
        self.script = b"".join(lines(step) for step in steps)
        self.ample = docd.run(self.script)
        self.seen, self.wrong, self.without_rows, self.known = Counter(), 0, {}, {}
        is_right = (self.ample.status, self.ample.told) == (0, b"") and fits(steps, self.ample.said, Store(), False, wants=0)
        if not is_right or any(has(line, b"stale") for line in self.ample.said):
            self.tell((), self.ample)

    def tell(self, numbers, ran):
        self.wrong += 1
        print("%s: refused %s: status %d, %r, %r" % (self.name, numbers, ran.status, ran.told, ran.said))

    def refuse_each(self, first=()):
        """Refuses each request after those in `first`, which are refused too, until a run has no such request. Returns how many."""
        start = number = sum(first) + 1
        while (ran := self.docd.run(self.script, [*first, number])).requests >= number:
            is_ended = (ran.status, ran.told) in ((0, b""), (1, b"docd: no memory\n"))
            if not is_ended or not self.is_allowed(ran, 1 + len(first)):
                self.tell((*first, number), ran)
            how = self.kind(ran)
            self.seen[how] += 1
            if how == STALE_VIEW:
                others = tuple(place for place, lines in enumerate(zip(ran.said, self.ample.said)) if len(set(lines)) > 1)
                self.without_rows.setdefault(others, number)
            number += 1
        return number - start

    def is_allowed(self, ran, wants):
        """Whether a run may print what it did. Most runs print what another one printed, which is checked once."""
        printed = tuple(ran.said), ran.status == 1, wants
        if printed not in self.known:
            self.known[printed] = fits(self.steps, ran.said, Store(), ran.status == 1, wants)
        return self.known[printed]

    def kind(self, ran):
        """How running out of memory shows in a run."""
        if ran.status == 1:
            return "no memory"
        if any(line.endswith(b" closed 6") for line in ran.said):
            return "closed 6"
        if ran.said == self.ample.said:
            return "as with ample memory"
        if any(has(line, b"WantOfMemory") for line in ran.said):
            return "write error 900" if any(has(line, b"done") for line in ran.said) else "code 900"
        return STALE_VIEW


STALE_VIEW = "a view stale"


def has(line, text):
    """Whether a line has these bytes followed by a zero."""
    return (text + b"\0").hex().encode() in line


def main():
    options = argparse.ArgumentParser(description=__doc__, formatter_class=argparse.RawDescriptionHelpFormatter)
    options.add_argument("--scripts", default="", help="words joined by commas: the scripts whose names have one of them")
    options.add_argument("--part", default="1/1", help="the first script, and how many further the next one is, such as 1/4")
    given = parsed(options, "refuse_allocations")
    wrong = refused_in_all = 0
    first, step = map(int, given.part.split("/"))
    names = named("refuse_allocations", given.scripts, SCRIPTS)[first - 1::step]
    with Refusing(given.program) as docd:
        for name in names:
            trial = Trial(docd, name, SCRIPTS[name])
            count = trial.refuse_each()
            later = sum(trial.refuse_each((number,)) for number in [*trial.without_rows.values()])
            shown = ", ".join("%d %s" % (count, how) for how, count in sorted(trial.seen.items()))
            print("%s: %d requests, each refused, and %d after another one: %s" % (name, count, later, shown), flush=True)
            wrong, refused_in_all = wrong + trial.wrong, refused_in_all + count + later
    print("%d requests refused, %d wrong" % (refused_in_all, wrong))
    return 0 if refused_in_all and not wrong else 1


if __name__ == "__main__":
    sys.exit(main())
