"""Tests of the admission program: its stored lists, and lines of every kind, are answered as the reference answers them; and what it answers is so."""
import random
from collections import Counter

import admission
import failures
import lists
from support import ROOT, compare, fail, played

ADMIT = ROOT / 'target' / 'bin' / 'admit'
# The least number of stored lists of each kind.
LEAST = {'rate': 100, 'rate, by one': 40, 'fails': 300, 'fails past its deadlines': 100, 'fails past 4,096': 40, 'admitted': 300, 'admitted, of all slots': 100}


def kinds(line, answer):
    """The kinds that a stored list is of, if it is not refused."""
    word, _, value = answer.partition(' ')
    if word == 'no':
        return []
    made = admission.declarations_of(line)
    special = {
        'rate, by one': word == 'rate' and lists.rate(made) == 5041,
        'fails past its deadlines': lists.is_past(made, answer),
        'fails past 4,096': word == 'fails' and int(value) > 4096,
        'admitted, of all slots': word == 'admitted' and lists.rate(made) == 5040,
    }
    return [word] + [kind for kind, holds in special.items() if holds]


def admission_lists():
    """the stored lists, first those settled by hand, have the reference's verdicts; every refusal in every place is among them, and every kind in number"""
    settled = lists.fixed_lines()
    for line, answer in settled:
        if admission.answer(line).encode() != answer:
            fail('admission of %r is %r by hand' % (line[:200], answer))
    folder = ROOT / 'crates' / 'admit'
    given, answers = (folder / 'stdin').read_bytes(), (folder / 'stdout').read_bytes()
    if not given.startswith(b''.join(line + b'\n' for line, _ in settled)):
        fail('the stored lists do not begin with those settled by hand')
    if admission.answers(given) != answers:
        fail('the stored lists have not the reference\'s verdicts')
    lines = answers.decode().split('\n')[:-1]
    if len(lines) < 2000:
        fail('the admission program has %d stored lists' % len(lines))
    refused = {answer for answer in lines if answer.startswith('no ')}
    wanted = {'no 11', 'no 16'} | {'no %d %d' % (number, place) for number in (17, 18, 14) for place in range(16)}
    if refused != wanted:
        fail('refusals that the stored lists lack, or have wrongly: %s' % ', '.join(sorted(refused ^ wanted)))
    found = Counter(kind for line, answer in zip(given.split(b'\n'), lines) for kind in kinds(line, answer))
    for kind, least in LEAST.items():
        if found[kind] < least:
            fail('of the stored lists only %d are of the kind: %s' % (found[kind], kind))
    return '%d stored lists have the reference\'s verdicts, %d of them settled by hand' % (len(lines), len(settled))


def admission_lines():
    """lists and lines that are none, made anew, get the reference's answers; and so do inputs of no line, one byte and a last line without an end"""
    seed = random.randrange(10**6)
    given = b''.join(line + b'\n' for line in lists.made_lines(seed, 300))
    compare('lists of seed %d' % seed, given, admission.answers(given), ADMIT)
    for given in (b'', b'\n', b'\n\n', b' ', b'1', b'1 2 1', b'1 2 1\n', b'1 2 1\n1 2', b'foo\n1 2 1', b'1 2 1 1 2 1\n\n1 2 ', b'x' * 200000 + b'\n1 2 1', b'1 2 1 ' * 50000 + b'1 2 1'):
        compare('%r' % given[:60], given, admission.answers(given), ADMIT)
    return 'lists of a fresh seed, %d, and lines that are no list have the reference\'s answers' % seed


def kept(made, ts):
    """Whether the demand of a list, by the sum itself, is at most t at each of these t."""
    return all(sum(burst + (t - deadline) // period for burst, period, deadline in made if deadline <= t) <= t for t in ts)


def rises(made, end):
    """The t below an end at which the demand of a list rises: if it is ever above t, it is so first at such a t."""
    return sorted({t for _, period, deadline in made for t in range(deadline, end, period)})


def is_so(made, answer, rng):
    """Whether an answer is so by the demand itself. A rate is shown by a t far off; a t by itself and all before it; and that a list is
    admitted by all t to 5,039 past its greatest deadline, some of three rounds more, and some up to 10^12."""
    word, _, value = answer.partition(' ')
    greatest = max((deadline for _, _, deadline in made), default=0)
    if word == 'rate':
        return lists.rate(made) > 5040 and not kept(made, [5041 * greatest])
    if lists.rate(made) > 5040:
        return False
    if word == 'fails':
        return not kept(made, [int(value)]) and kept(made, rises(made, int(value)))
    soon = rises(made, greatest + 5040)
    later = [t for t in rises(made, greatest + 4 * 5040) if t >= greatest + 5040]
    some = rng.sample(later, min(len(later), 200))
    return word == 'admitted' and kept(made, soon) and kept(made, some) and kept(made, [t + 5040 * rng.randrange(10**12 // 5040) for t in some])


def admission_every_t():
    """what the program answers on lists settled by hand and made anew is so by the sum itself, by each t up to one that fails and by some up to 10^12"""
    seed = random.randrange(10**6)
    rng = random.Random(seed)
    judged = [made for made, _ in lists.judged_lists()] + lists.good_lists(seed, 200)
    answers = played(b''.join(lists.list_line(made) + b'\n' for made in judged), ADMIT).decode().split('\n')[:-1]
    if len(answers) != len(judged):
        fail('%d lists have %d answers' % (len(judged), len(answers)))
    for made, answer in zip(judged, answers):
        if not is_so(made, answer, rng):
            fail('the answer on %r, seed %d, is not so: %s' % (made, seed, answer))
    return 'the answers on %d lists, most of a fresh seed, %d, are so by the demand itself' % (len(judged), seed)


def admission_failures():
    """a read or a write of the admission program that fails is told, and nothing else is written"""
    failures.both('admit', b'1 2 1\nfoo')
    return 'a read or a write of the admission program that fails is told'
