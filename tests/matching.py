"""The most cells that can go in different slots of their windows, whoever chooses the slots."""
import arrivals
from support import fail


def heaviest(declaration, t):
    """The slots of the most cells of a declaration that are due by t: the burst at 0, then one in each period."""
    burst, period, deadline = declaration
    return [0] * burst + list(range(period, t - deadline + 1, period)) if deadline <= t else []


def matched(windows, usable=None):
    """How many cells at most can go, in any slots or in those that are usable: one after the other takes a slot, by an augmenting path if
    there is one."""
    taken = {}

    def takes(cell, seen):
        """Whether the cell takes a slot of its window that is not seen yet, whose cell, if it has one, takes another."""
        first, last = windows[cell]
        for slot in range(first, last + 1):
            if slot not in seen and (usable is None or slot in usable):
                seen.add(slot)
                if slot not in taken or takes(taken[slot], seen):
                    taken[slot] = cell
                    return True
        return False

    return sum(takes(cell, set()) for cell in range(len(windows)))


def most(made, t):
    """Of the heaviest arrivals of a list by t, which keep its declarations, how many there are and how many can go."""
    slots = [heaviest(declaration, t) for declaration in made]
    if not all(map(arrivals.keeps, made, slots)):
        fail('the heaviest arrivals by %d do not keep %r' % (t, made))
    windows = [(slot, slot + deadline - 1) for (_, _, deadline), own in zip(made, slots) for slot in own]
    return len(windows), matched(windows)
