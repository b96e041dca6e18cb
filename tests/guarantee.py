"""Tests of the guarantee: on an admitted list no cell is missed, no condition can be spared, and of a list not admitted not all cells can be sent."""
import random
from collections import Counter
from itertools import cycle

import admission
import arrivals
import judging
import lists
import named
from matching import most
from outcomes import CONDITIONS, Outcome
from support import PROGRAM, compare, fail, played

# An admitted list; yet sixteen places are too few for some arrivals of flow 1.
CROWDED = [(16, 5040, 16), (1, 2, 4096), (16, 5040, 32), (16, 5040, 48)]
LAST_T = 300  # of those by which cells are matched to slots
# The least number of sessions of each kind: by list, by a cell sent in its last slot, by what is answered to which command, and by arrivals.
LEAST_SESSIONS = {
    'rate 5,040': 60, 'demand t': 60, 'last slot': 60, 'another flow opened': 90, 'C ok': 90, 'C no 12': 80, 'U no 3': 90, 'U no 14': 90,
    'u no 1': 80, 'u no 2': 90, 'u no 5': 8, 'u no 14': 90, 'f ok': 90, 'b ok': 90, 'no 11': 90, **dict.fromkeys(arrivals.KINDS, 15),
}
# The least number of lists of each kind that are tried.
LEAST_LISTS = {
    'fails': 60, 'fails by one': 40, 'fails past 50': 20, 'rate': 30, 'rate by one': 25, 'rate past 50': 20, 'admitted': 90, 'admitted, demand t': 30,
}


def verdicts(judged):
    """What the admission program answers on lists, and the reference too."""
    answers = played(b''.join(lists.list_line(made) + b'\n' for made in judged), judging.ADMIT).decode().split('\n')[:-1]
    if answers != [admission.verdict(made) for made in judged]:
        fail('the admission program and the reference differ')
    return answers


def brims(made, last):
    """The t up to a last by which a list leaves no room for one more cell."""
    return [t for t in judging.rises(made, last + 1) if not judging.kept([*made, (1, 5040, t)], [t])]


def in_number(what, found, least):
    """Holds the number found of each kind to the least."""
    for kind in (kind for kind in least if found[kind] < least[kind]):
        fail('of the %s only %d are of the kind: %s' % (what, found[kind], kind))


def crowded_list(rng, _):
    """An admitted list of bursts that are due one after the other, and a flow that then has more than sixteen cells to keep."""
    bursts = [(16, 5040, 16 * count) for count in range(1, rng.randint(5, 9))]
    return rng.sample(bursts + [(1, rng.choice([2, 3]), rng.randint(1000, 4096))], len(bursts) + 1)


def kinds_of(made, arriving, outcome):
    """The kinds that a session is of."""
    special = {
        'rate 5,040': lists.rate(made) == 5040,
        'demand t': brims(made, outcome.now),
        'last slot': outcome.at_last,
        'another flow opened': any(flow >= len(made) for flow in outcome.deadlines),
    }
    return [arriving, *outcome.met, *(kind for kind, holds in special.items() if holds)]


def has_room(declaration):
    """Whether the cells that a flow can have in as many slots as its deadline are at most sixteen."""
    burst, period, deadline = declaration
    return burst + (deadline - 1) // period <= 16


def none_missed():
    """sessions that keep every condition, on admitted lists of every kind, many of them to the brim, have each cell sent in its window, and taken if there are places enough"""
    seed = random.randrange(10**6)
    rng = random.Random(seed)
    makers = [lists.brim_list] * 36 + [lists.tight_list] * 16 + [lists.late_list, lists.early_list, lists.any_list, lists.light_list, crowded_list] * 9
    judged = [CROWDED, *(made for made, _ in lists.judged_lists() if made), *(maker(rng, rng.randint(1, 16)) for maker in makers)]
    admitted = [made for made, answer in zip(judged, verdicts(judged)) if answer == 'admitted']
    found, cells = Counter(), 0
    for made, arriving in [*zip(admitted, cycle(arrivals.KINDS[1:])), *((made, 'heaviest') for made in admitted)]:
        given = arrivals.Making(rng, made).session(arriving, rng.choice([300, 600, 1000, 1000, 4000]))
        outcome = Outcome(given, played(given, PROGRAM))
        for name in outcome.broken(made):
            fail('on %r, seed %d, arrivals %s: as it is made or answered, the session breaks: %s' % (made, seed, arriving, name))
        if outcome.missed or outcome.late():
            fail('on %r, seed %d, arrivals %s: %d cells told to be missed, %d late or wrong' % (made, seed, arriving, outcome.missed, outcome.late()))
        if any(has_room(declaration) and outcome.offered[flow] != outcome.accepted[flow] for flow, declaration in enumerate(made)):
            fail('on %r, seed %d, arrivals %s: a flow with places enough is refused' % (made, seed, arriving))
        found.update(kinds_of(made, arriving, outcome))
        cells += sum(map(len, outcome.accepted.values()))
    in_number('sessions of seed %d' % seed, found, LEAST_SESSIONS)
    return '%d sessions on admitted lists, of a fresh seed, %d: %d cells, and none is missed' % (2 * len(admitted), seed, cells)


def broken_sessions():
    """Sessions worked out by hand that miss a cell: the one condition that each breaks, its list, its commands and their replies."""
    both, burst = [(1, 2, 1), (1, 2, 2)], [(2, 2, 2)]
    opened = ('U 0 1', 'ok'), ('U 1 2', 'ok')
    first = *opened, ('u 0 1', 'ok 0 0'), ('u 1 2', 'ok 0 1'), ('t', 'sent 0 0 missed 0')
    at_once = ('U 0 1', 'ok'), ('U 1 1', 'ok'), ('u 0 1', 'ok 0 0'), ('u 1 1', 'ok 0 0'), ('t', 'sent 0 0 missed 1')
    again = ('t', 'sent 1 0 missed 0'), ('C 1', 'ok'), ('U 1 1', 'ok'), ('u 0 1', 'ok 1 2'), ('u 1 1', 'ok 1 2'), ('t', 'sent 0 1 missed 1')
    cells = ('U 0 2', 'ok'), ('u 0 2', 'ok 0 1'), ('u 0 2', 'ok 1 1')
    sooner = ('t', 'sent 1 0 missed 0'), ('u 1 1', 'ok 1 2'), ('u 0 1', 'ok 1 2'), ('t', 'sent 0 1 missed 1')
    return [
        ('admitted', [(1, 2, 1)] * 2, at_once),
        ('admitted', [(1, 1, 1), (1, 1, 2)], [*first, ('u 0 1', 'ok 1 1'), ('u 1 2', 'ok 1 2'), ('t', 'sent 0 1 missed 1')]),
        ('opened as declared', both, at_once),
        ('opened as declared', both, [*first, *again]),
        ('full deadlines', both, [*opened, ('u 0 1', 'ok 0 0'), ('u 1 1', 'ok 0 0'), ('t', 'sent 0 0 missed 1')]),
        ('full deadlines', both, [*first, *sooner]),
        ('full deadlines', burst, [cells[0], ('u 0 1', 'ok 0 0'), ('u 0 1', 'ok 1 0'), ('t', 'sent 0 0 missed 1')]),
        ('no other flow', burst, [*cells, ('U 1 1', 'ok'), ('u 1 1', 'ok 0 0'), ('t', 'sent 1 0 missed 0'), ('t', 'sent 0 0 missed 1')]),
        ('declarations kept', both, [*first[:3], ('u 0 1', 'ok 1 0'), ('t', 'sent 0 0 missed 1')]),
        ('declarations kept', both, [*first, ('u 0 1', 'ok 1 1'), ('t', 'sent 0 1 missed 1')]),
        ('every turn open', burst, [*cells, ('x', 'idle missed 0'), ('t', 'sent 0 0 missed 1')]),
    ]


def conditions_needed():
    """each condition of the guarantee is needed: sessions worked out by hand break one alone, and miss a cell"""
    tried = broken_sessions()
    for name, made, pairs in tried:
        given, expected = named.paired(*pairs)
        compare('a session that breaks: ' + name, given, expected)
        outcome = Outcome(given, expected)
        if (outcome.broken(made), outcome.missed, outcome.astray) != ([name], 1, 0):
            fail('a session that breaks: %s; by its replies: %s' % (name, ', '.join(outcome.broken(made))))
    if {name for name, _, _ in tried} != set(CONDITIONS):
        fail('there is a condition that no session breaks')
    return '%d sessions, as worked out by hand, miss a cell for want of one of the %d conditions' % (len(tried), len(CONDITIONS))


def fast_list(rng, length):
    """A list of too high a rate, by little or by much, mostly with deadlines that make it fail some t that is not large."""
    periods = lists.periods_of(rng, lists.FULL + rng.choice([1, 30, 60, 120, rng.randint(2, 600)]), length)
    early = rng.randrange(3) == 0
    return [(rng.randint(1, 2), period, rng.randint(1, 60)) if early else (1, period, min(period, 200) + rng.randrange(4)) for period in periods]


def overfull_list(rng, length):
    """A tight list with its last declaration such that one cell is too many by some t, where sixteen are."""
    made, t = lists.tight_list(rng, length)[:-1], rng.randint(1, LAST_T)
    least = next((burst for burst in range(1, 16) if not judging.kept([*made, (burst, 5040, t)], [t])), 16)
    return [*made, (least, 5040, t)]


def beyond(made, word, t):
    """The kinds of a list that first fails by t: of its heaviest arrivals by t only t can go, whoever chooses, and by t - 1 all can."""
    (cells, sent), (before, sent_before) = most(made, t), most(made, t - 1)
    if not sent == t < cells or sent_before < before:
        fail('%r first fails by %d: %d of %d cells can go, and of those by the slot before %d of %d' % (made, t, sent, cells, sent_before, before))
    return [word] + [word + ' by one'] * (cells == t + 1) + [word + ' past 50'] * (t > 50)


def served(made, t):
    """The kinds of an admitted list: its heaviest arrivals by t can all go."""
    cells, sent = most(made, t)
    if sent < cells:
        fail('%r is admitted: %d of the %d cells by %d can go' % (made, sent, cells, t))
    return ['admitted'] + ['admitted, demand t'] * (cells == t)


def none_could():
    """of the heaviest arrivals by the first t that a list fails only t can go, whoever chooses; by the t before, and of admitted lists, all can"""
    seed = random.randrange(10**6)
    rng = random.Random(seed)
    makers = [fast_list, overfull_list, lists.tight_list] * 150 + [lists.early_list, lists.any_list, lists.past_list, lists.brim_list] * 30
    judged = [*(made for made, _ in lists.judged_lists()), *(maker(rng, rng.randint(1, 16)) for maker in makers)]
    found = Counter()
    for made, answer in zip(judged, verdicts(judged)):
        word, _, value = answer.partition(' ')
        rises = judging.rises(made, LAST_T + 1)
        first = next((t for t in rises if not judging.kept(made, [t])), None)
        if word != 'rate' and first != (int(value) if value and int(value) <= LAST_T else None):
            fail('%r, of seed %d, first fails by %r, and is answered %r' % (made, seed, first, answer))
        if first is not None:
            found.update(beyond(made, word, first))
        elif word == 'admitted' and rises:
            found.update(served(made, rng.choice(brims(made, LAST_T) or rises)))
    in_number('lists of seed %d' % seed, found, LEAST_LISTS)
    failing = found['fails'] + found['rate']
    return 'of %d lists, of a fresh seed, %d, not all arrivals can go, and of %d admitted ones all can' % (failing, seed, found['admitted'])


def room_enough():
    """a flow of which sixteen cells at most come within its deadline is refused none, and one of seventeen is refused one"""
    for made, full in (([(16, 5040, 16), (15, 5040, 31), (1, 2, 32)], 0), ([(16, 5040, 16), (16, 5040, 32), (1, 2, 33)], 1)):
        if verdicts([made]) != ['admitted'] or has_room(made[2]) != (full == 0):
            fail('%r is not such a list' % (made,))
        bursts = ['u %d %d' % (flow, made[flow][2]) for flow in (0, 1) for _ in range(made[flow][0])]
        lines = ['U %d %d' % (flow, deadline) for flow, (_, _, deadline) in enumerate(made)] + bursts
        given = named.text(*lines, *(line for now in range(100) for line in ['u 2 %d' % made[2][2]] * (now % 2 == 0) + ['t']))
        outcome = Outcome(given, played(given, PROGRAM))
        if outcome.broken(made) or outcome.missed or outcome.late() or outcome.met['u no 5'] != full:
            fail('on %r: %r' % (made, outcome.met))
    return 'a flow of which sixteen cells come within its deadline is refused none, and one of seventeen is refused one'


def refused_all_the_same():
    """on an admitted list cells within the declarations are refused with 5, and none is missed: sixteen places are few beside a late deadline"""
    if verdicts([CROWDED]) != ['admitted']:
        fail('the list is not admitted')
    # Flow 1 has a cell in every other slot, and waits while the bursts of the others go in the slots 0 to 47.
    for begun, refused, counts in ((0, range(32, 49, 2), [89, 9, 89, 11]), (1, range(33, 48, 2), [90, 8, 90, 10])):
        lines = ['U %d %d' % (flow, deadline) for flow, (_, _, deadline) in enumerate(CROWDED)] + ['u 0 16', 'u 2 32', 'u 3 48'] * 16
        given = named.text(*lines, *(line for now in range(100) for line in ['u 1 4096'] * (now % 2 == begun) + ['t']))
        outcome = Outcome(given, played(given, PROGRAM))
        if [slot for slot in outcome.offered[1] if slot not in outcome.accepted[1]] != list(refused):
            fail('of cells from slot %d on those at %r are accepted' % (begun, outcome.accepted[1]))
        if [outcome.met[answer] for answer in ('u ok', 'u no 5', 't sent', 't idle')] != counts:
            fail('of cells from slot %d on: %r' % (begun, outcome.met))
        if not all(arrivals.keeps(declaration, outcome.offered[flow]) for flow, declaration in enumerate(CROWDED)):
            fail('cells from slot %d on do not keep the declarations' % begun)
        if outcome.broken(CROWDED) or outcome.missed or outcome.late():
            fail('cells from slot %d on are not sent in time' % begun)
    return 'on an admitted list 9 or 8 of the cells of one flow find no place, and none is missed'
