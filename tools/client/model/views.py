"""Views, and whether each is live, and the work that it has counted."""
from model.work import flow_at, placed, with_change, work

MOST_TICKS = 2**63 - 1


class View:
    """`reads` are the namespaces that a view reads, its source first and then each that a stage looks into, in order;
    `functions` are its stages, as functions of rows. Its height is 1 if it reads only collections, and else 1 more than that of the
    highest view that it reads. It is live once it is made; a view becomes stale only if memory runs out."""

    def __init__(self, reads, functions, stages, height):
        self.reads, self.functions, self.stages, self.height = reads, functions, placed(stages, functions), height
        self.is_live, self.ticks = False, 0

    def refresh(self):
        """Makes the view."""
        self.is_live = True

    def lose(self):
        """Makes the view stale."""
        self.is_live, self.ticks = False, 0

    def take(self, coming, look):
        """Takes in the changes of each list that the view reads, one after the other, the source's first, and returns those that it
        passes on. None, as the result or among `coming`, stands for a stale view. A view over a stale one is stale too."""
        if not self.is_live or None in coming:
            return self.lose()
        lists = list(map(look, self.reads))
        handed, ticks = [], self.ticks
        for at, changes in enumerate(coming):
            for change in changes:
                flows = flow_at(self.stages, lists, at, change)
                handed, ticks = handed + flows[-1], ticks + work(flows)
                lists[at] = with_change(lists[at], change)
        self.ticks = min(MOST_TICKS, ticks)
        return handed
