"""The order of a schedule and who gets how much time: two rounds over the settings, and models beside them.

The first round tries each setting for a little, since most proofs that are found are found soon; the second gives what
is left of the time to those that came to no end of their own, by their shares. Models are looked for size by size,
with a small budget of nodes and then with the greatest.
"""
from settings import ROWS, make, text_of

# sizes in the order in which they are tried, each with its share: those that small numbers of nodes don't settle and
# great ones may have the most
SIZES = {2: 1, 1: 1, 3: 1, 4: 2, 5: 3, 6: 3, 7: 2, 8: 1}
NODES = (10000, 10000000)
FIRST_ROUND = 0.25
# nothing gets less: starting the program takes a part of it on a busy machine
LEAST = 0.5


def settings_for(problem, form):
    """The settings for a form, as made problems; one that makes the same problem as an earlier one is left out."""
    found, seen = [], set()
    for row in ROWS:
        made = make(row, problem, form) if row.forms(form) else None
        key = made and (made.words, text_of(made))
        if made and key not in seen:
            seen.add(key)
            found.append(made)
    return found


class Queue:
    """Things to try in rounds, each with a share; a thing that came to an end isn't tried again."""

    def __init__(self, things, shares, rounds):
        self.things, self.shares, self.rounds = list(things), dict(zip(things, shares)), rounds
        self.waiting, self.round, self.done = list(things), 0, set()

    def next(self, capacity):
        """(thing, round, seconds) of what is to be tried now, given the time that is left for all; None at the end."""
        while not self.waiting and self.round + 1 < self.rounds and len(self.done) < len(self.things):
            self.round += 1
            self.waiting = [it for it in self.things if it not in self.done]
        if not self.waiting:
            return None
        left = sum(self.shares[it] for it in self.waiting)
        if self.round + 1 < self.rounds:
            capacity = capacity * FIRST_ROUND
        thing = self.waiting.pop(0)
        return thing, self.round, max(LEAST, capacity * self.shares[thing] / left)

    def finish(self, thing):
        """The thing needs no further round."""
        self.done.add(thing)

    def empty(self):
        return not self.waiting and (self.round + 1 >= self.rounds or len(self.done) == len(self.things))
