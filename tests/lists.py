"""Maker of admission lists for trying the link test.

    lists.py SEED COUNT > lists

writes the lists and the lines settled by hand, and after them so many random lists and half as many random lines that are mostly no
list. Everything here is settled by its arguments: the same seed gives the same bytes.
"""

import random
import sys

import admission

LARGEST = 2**32 - 1
FULL = 5040  # the rate of one cell in each slot; a declaration's is this over its period
LAST_T = 4096 + 5039  # no list is asked about a t past it
DIVISORS = [period for period in range(1, 5041) if 5040 % period == 0]
BEYOND = [[0, 17, 257, LARGEST], [0, 11, 5041, 10080, 65537, LARGEST], [0, 4097, 65537, LARGEST]]  # bad bursts, periods, deadlines


# A declaration with any good numbers.
def any_declaration(rng):
    return rng.randint(1, 16), rng.choice(DIVISORS), rng.randint(1, 4096)


# The rate of a list.
def rate(made):
    return sum(FULL // period for _, period, _ in made)


# Periods that have exactly this rate together: about so many, and from seven on no more.
def periods_of(rng, total, length):
    periods, widest = [], rng.choice([6, 16, 30])
    while total > 0:
        fitting = [period for period in DIVISORS if FULL // period <= total]
        periods.append(rng.choice(fitting[:widest]) if len(periods) < max(2, length - 5) else fitting[0])
        total -= FULL // periods[-1]
    rng.shuffle(periods)
    return periods


# Periods of which any so many fit together.
def long_periods(length):
    return [period for period in DIVISORS if period >= length]


# A list of any bursts and deadlines.
def any_list(rng, length):
    most, periods = rng.choice([64, 4096]), long_periods(length)
    return [(rng.randint(1, 16), rng.choice(periods), rng.randint(1, most)) for _ in range(length)]


# A list of light load.
def light_list(rng, length):
    return [(rng.randint(1, 4), rng.choice(DIVISORS[-30:]), rng.randint(40, 4096)) for _ in range(length)]


# A list of short deadlines, which are hard to keep together.
def early_list(rng, length):
    most, periods = rng.choice([4, 12, 40, 120]), long_periods(length)
    return [(rng.randint(1, 2), rng.choice(periods), rng.randint(1, most)) for _ in range(length)]


# A list whose rate is about all the slots, so that small things decide.
def tight_list(rng, length):
    out = []
    for _ in range(length):
        fitting = [period for period in DIVISORS if rate(out) + FULL // period <= FULL]
        if not fitting:
            break
        period = rng.choice(fitting[:6])
        burst = rng.randint(1, 3)
        out.append((burst, period, max(1, burst * min(period, 300) + rng.randint(-3, 2))))
    return out


# A list that takes every slot but a few, and one cell or more with a late deadline.
def late_list(rng, length):
    out = [(rng.randint(1, 4), rng.choice([5040, 2520, 1680, 1260, 1008, 840]), rng.randint(1, 4096)) for _ in range(rng.randint(1, 4))]
    spare = rng.randint(0, 4)
    out += [(1, period, min(period + spare, 4096)) for period in periods_of(rng, FULL - rate(out), length - len(out))]
    rng.shuffle(out)
    return out


# The least deadline that a burst and a period can have beside what leaves so many slots free by each t. Where the burst leaves n of
# them, at most n periods may be over since the deadline; where it has no room, the deadline is still to come.
def least_deadline(free, burst, period):
    return max(t + 1 - (period * (slots - burst + 1) if slots >= burst else 0) for t, slots in enumerate(free))


# A list that is admitted, mostly of all the slots, and whose deadlines are each the least that the declarations before it allow; every
# other such list begins with a burst that is due late.
def brim_list(rng, length):
    first = [(rng.randint(1, 16), rng.choice([5040, 2520, 1680]), rng.choice([4096, rng.randint(500, 4096)]))] * rng.randrange(2)
    wanted = first + [(rng.choice([1, 1, 1, 2, 3]), period, 1) for period in periods_of(rng, FULL - rate(first), length - len(first))]
    made, free = [], list(range(LAST_T + 1))
    for burst, period, soonest in wanted:
        deadline = max(soonest, least_deadline(free, burst, period))
        if deadline <= 4096:
            made.append((burst, period, deadline))
            free = [slots - (burst + (t - deadline) // period if t >= deadline else 0) for t, slots in enumerate(free)]
    return made


# Whether an answer is a t past the list's greatest deadline.
def is_past(made, answer):
    return answer.startswith("fails") and int(answer.split()[1]) > max(deadline for _, _, deadline in made)


# A list that first fails past its greatest deadline: an admitted one, its last deadline a slot sooner. Where that does not do it,
# another is tried, twenty at most.
def past_list(rng, length):
    for _ in range(20):
        *made, (burst, period, deadline) = brim_list(rng, min(length, 16))
        made.append((burst, period, max(1, deadline - 1)))
        if is_past(made, admission.verdict(made)):
            break
    return made


# A list of too high a rate: by far, or by so little that with late deadlines no t fails for long.
def fast_list(rng, length):
    if rng.randrange(3) == 0:
        return [(rng.randint(1, 16), 1, rng.randint(1, 4096))] + [any_declaration(rng) for _ in range(max(1, length - 1))]
    soonest = rng.choice([1, 1000, 4096])
    periods = periods_of(rng, FULL + rng.choice([1, 1, rng.randint(2, 100)]), length)
    return [(rng.randint(1, 3), period, rng.randint(soonest, 4096)) for period in periods]


# Of twenty lists two have too high a rate, and two fail past their greatest deadline.
MAKERS = [any_list, light_list, brim_list] + [early_list] * 5 + [tight_list] * 4 + [late_list] * 4 + [past_list] * 2 + [fast_list] * 2


# Random lists of good numbers, none of them too long.
def good_lists(seed, count):
    rng = random.Random(seed)
    return [rng.choice(MAKERS)(rng, rng.randint(0, 16)) for _ in range(count)]


# The list with numbers beyond their limits: as often as not one, else two or three of one declaration, or two to six anywhere.
def spoilt_list(rng, made):
    spots = [(at, field) for at in range(len(made)) for field in range(3)]
    kind = rng.randrange(4)
    if kind < 2:
        chosen = [rng.choice(spots)]
    elif kind < 3:
        at = rng.randrange(len(made))
        chosen = rng.sample(spots[3 * at : 3 * at + 3], rng.randint(2, 3))
    else:
        chosen = rng.sample(spots, rng.randint(2, min(6, len(spots))))
    spoilt = [list(declaration) for declaration in made]
    for at, field in chosen:
        spoilt[at][field] = rng.choice(BEYOND[field])
    return [tuple(declaration) for declaration in spoilt]


# Random lists of 0 to 17 declarations; about one list in eight has numbers beyond their limits.
def random_lists(seed, count):
    rng = random.Random(seed)
    lists = []
    for _ in range(count):
        made = rng.choice(MAKERS)(rng, rng.choice([0, 1, 1, 2, 2, 3, 3, 4, 5, 6, 7, 8, 10, 12, 14, 16, 16, 17]))
        if made and rng.randrange(8) == 0:
            made = spoilt_list(rng, made)
        lists.append(made)
    return lists


# Declarations with a bad number, by the number that each is refused with.
def bad_declarations():
    return {
        17: [
            (0, 5040, 4096), (17, 5040, 4096), (257, 5040, 4096), (65537, 5040, 4096), (LARGEST, 5040, 4096),
            (0, 0, 1), (17, 11, 1), (0, 5040, 0), (17, 1, 4097), (0, 0, 0), (LARGEST, LARGEST, LARGEST),
        ],
        18: [
            (1, 0, 4096), (1, 11, 4096), (16, 32, 4096), (1, 2521, 4096), (1, 5039, 1), (1, 5041, 4096), (1, 10080, 4096),
            (1, LARGEST, 4096), (1, 0, 0), (16, 11, 4097), (1, LARGEST, LARGEST),
        ],
        14: [
            (1, 5040, 0), (16, 1, 0), (1, 5040, 4097), (16, 1, 4097), (1, 5040, 65537), (1, 5040, LARGEST),
        ],
    }


# Lists with bad numbers, each with its answer, settled by hand: the first bad declaration is named, and a long list goes first.
def refused_lists():
    one, late, fast = (1, 5040, 1), (1, 5040, 4096), (16, 1, 1)
    burst, period, deadline = (17, 5040, 4096), (1, 11, 4096), (1, 5040, 4097)
    pairs = []
    for number, declarations in bad_declarations().items():
        for bad in declarations:
            pairs += [
                ([bad], f"no {number} 0"),
                ([bad] + [fast] * 15, f"no {number} 0"),
                ([one] * 7 + [bad], f"no {number} 7"),
                ([late] * 15 + [bad], f"no {number} 15"),
                ([late] * 16 + [bad], "no 16"),
            ]
    for place in range(16):
        before, after = [late] * place, [late] * (15 - place)
        pairs += [
            (before + [burst] + after, f"no 17 {place}"),
            (before + [period] + after, f"no 18 {place}"),
            (before + [deadline] + after, f"no 14 {place}"),
        ]
    too_long = [
        [late] * 17, [fast] * 17, [(1, 1, 4096)] * 17, [late] * 18, [late] * 40, [fast] * 100, [burst] + [late] * 16, [period] + [late] * 16,
        [deadline] + [late] * 16, [burst] + [late] * 15 + [deadline], [burst] * 17, [(0, 0, 0)] * 17, [(LARGEST, LARGEST, LARGEST)] * 17,
        [late] * 17 + [period], [(0, 0, 0)] * 18, [(1, 1, 0)] * 33,
    ]
    return pairs + [
        ([late, late, deadline, burst], "no 14 2"),
        ([late, late, deadline, period], "no 14 2"),
        ([late, late, period, burst], "no 18 2"),
        ([late, late, burst, deadline], "no 17 2"),
        ([deadline, period, burst], "no 14 0"),
        ([late, period, deadline, burst], "no 18 1"),
        ([late, deadline, (0, 0, 0)], "no 14 1"),
        ([late, (1, 11, 0), (17, 5040, 1)], "no 18 1"),
        ([late, (17, 5040, 0), (1, 11, 1)], "no 17 1"),
        ([deadline] + [late] * 14 + [burst], "no 14 0"),
        ([late] * 14 + [deadline, burst], "no 14 14"),
        ([late] * 14 + [period, (0, 0, 0)], "no 18 14"),
        ([burst] * 16, "no 17 0"),
        ([period] * 16, "no 18 0"),
        ([deadline] * 16, "no 14 0"),
        ([(0, 0, 0)] * 16, "no 17 0"),
        ([(3, 2, 2), deadline], "no 14 1"),
        ([(1, 2, 1), (1, 2, 1), period], "no 18 2"),
        ([(1, 1, 1), (1, 1, 1), burst], "no 17 2"),
        ([(1, 1, 1), (1, 1, 1), period], "no 18 2"),
        ([(1, 1, 1), (1, 1, 1), deadline], "no 14 2"),
        ([fast] * 15 + [burst], "no 17 15"),
    ] + [(made, "no 16") for made in too_long]


# Lists of good numbers, most of them at a limit, each with its answer, settled by hand. Bursts of 1 with D = P or more have no more
# than t/P each by t: such a list is admitted unless its rate is too high.
def judged_lists():
    one, late, fast, whole = (1, 5040, 1), (1, 5040, 4096), (16, 1, 1), (1, 1, 1)
    client = [(1, 2, 1000), (1, 3, 1000), (1, 6, 1000), (1, 5040, 1000)]
    # Rate 5,039: every t leaves a slot free at least; 4,320 leaves one, and 4,096 two.
    near = [(1, 2, 2), (1, 3, 3), (1, 7, 7), (1, 45, 45), (1, 720, 720)]
    steps = [(1, 16, deadline) for deadline in range(1, 17)]  # demand by t is t
    admitted = [
        [], [one], [late], [late] * 16, [(16, 5040, 16)], [(16, 5040, 4096)] * 16, [whole], [(2, 1, 2)], [(16, 1, 4096)], client[:3],
        [(1, 15, 16)] * 15, [(1, 16, 16)] * 16, [(1, 16, 16)] * 15 + [(1, 16, 4096)], steps, steps[::-1], [(1, 2, 1), (1, 2, 2)],
        [(1, 2, 1), (1, 3, 2), (1, 6, 6)], near, near + [one], near + [late],
    ]
    # Above 5,040, whether no t up to 9,135 fails or the first does.
    too_fast = [
        client, client[::-1], [whole, whole], [whole, one], [whole, late], [(1, 1, 2), one], [(1, 1, 2), late], [(1, 1, 2), late, late],
        [(1, 1, 2), one, (1, 5040, 4095)], [(1, 1, 4096)] * 2, [late] * 15 + [(1, 1, 4096)], [fast] * 16, [(16, 1, 4096)] * 16,
        [(1, 15, 16)] * 16, [(1, 16, 16)] * 15 + [(1, 15, 16)], near + [one, one], near + [late, late],
    ]
    failing = [
        (1, [fast]), (1, [(2, 1, 1)]), (1, [(1, 2, 1), (1, 2, 1)]), (2, [(3, 2, 2)]), (15, [(16, 5040, 15)]), (15, [(16, 1, 15)]),
        (15, steps[:15] + [(1, 16, 15)]), (2, near + [(2, 5040, 2)]), (4096, near + [(3, 5040, 4096)]), (4320, near + [(2, 5040, 4096)]),
        # 3 + 2 + 1 are 6, past the greatest deadline; 2048 + 1365 + 586 + 92 + 6 + 1 are 4,098.
        (5, [(1, 2, 1), (1, 3, 2), (1, 6, 4)]),
        (4097, [(1, 2, 3), (1, 3, 5), (1, 7, 2), (1, 45, 2), (1, 720, 497), late]),
        # A round after 7 all but the last rise again together: 7 + 4,200 and 2 + 839 are 5,048.
        (5047, [(1, 4, 7), (1, 5, 7), (1, 5, 7), (1, 7, 7), (1, 30, 7), (1, 144, 7), (1, 5040, 7), (2, 6, 9)]),
        # 1323 + 1766 + 1324 + 588 + 265 + 16 + 9 + 6 are 5,297.
        (5296, [(1, 4, 7), (1, 3, 1), (1, 4, 4), (1, 9, 11), (1, 20, 16), (1, 315, 541), (3, 720, 815), (1, 1008, 246)]),
        # The last t that any list can first fail at: 3044 + 1827 + 1305 + 1015 + 571 + 571 + 457 + 305 + 33 + 5 + 2 are 9,135.
        (9134, [(1, 3, 5), (1, 5, 4), (1, 7, 6), (1, 9, 8)] + [(1, 16, 14)] * 2 + [(1, 20, 14), (1, 30, 14), (1, 280, 174), (3, 1680, 4096), (1, 5040, 4094)]),
    ]
    return [(made, "admitted") for made in admitted] + [(made, "rate") for made in too_fast] + [(made, f"fails {t}") for t, made in failing]


# Lines that no list has, and a few that one has, each with its answer, settled by hand.
def settled_lines():
    late = b"1 5040 4096"
    no_lists = [
        b"foo", b"1", b"1 2", b"1 2 1 1", b"1 2 1 1 2", b" ", b"  ", b" 1 2 1", b"1 2 1 ", b"1  2 1", b"1 2  1", b"1 2 1  1 2 2", b"1,2,1", b"1 2 1,",
        b"1\t2 1", b"1 2 1\r", b"\r", b"1 2 1\0", b"\0", b"-1 2 1", b"+1 2 1", b"1 2 1.0", b"1e1 2 1", b"0x1 2 1", b"\xff", b"1 2 1 \xff", b"t", b"admitted",
        b"01 2 1", b"1 02 1", b"1 2 01", b"00 2 1", b"1 2 00", b"1 2 4294967296", b"4294967296 2 1", b"1 9999999999 1", b"1 2 10000000000",
        b"1 2 00000000001", b"1 2 18446744073709551615", b"1 2 18446744073709551617", b"1 2 340282366920938463463374607431768211457",
        b" ".join([late] * 16 + [b"1"]), b" ".join([late] * 16 + [b"1 5040 4294967296"]), b" ".join([late] * 17 + [b"foo"]), b" ".join([late] * 17) + b" ",
        b" ".join([late] * 18 + [b"1 2"]), b" ".join([late] * 40 + [b"01 2 1"]), b" ".join([late] * 17 + [b"1 5040 18446744073709551616"]),
        b"17 2 foo", b"1 11 0 1", b"0" * 5000, b" " * 5000, b"1" * 5000, b"x" * 70000,
    ]
    some_lists = [
        (b"", b"admitted"), (b"1 2 1", b"admitted"), (b"0 0 0", b"no 17 0"), (b"1 0 0", b"no 18 0"), (b"1 2 0", b"no 14 0"), (b"1 2 4294967295", b"no 14 0"),
        (b"4294967295 2 1", b"no 17 0"), (b"1 1000000000 1", b"no 18 0"), (b"1 2 1 1 2 1", b"fails 1"), (b"1 1 1 1 1 1", b"rate"),
        (b" ".join([late] * 17), b"no 16"), (b" ".join([b"0 0 0"] * 5000), b"no 16"), (b" ".join([late] * 16), b"admitted"),
    ]
    return [(line, b"no 11") for line in no_lists] + some_lists


# A random line that is a list's text with a byte or two changed, put in or taken out, which mostly makes it no list.
def random_line(rng):
    text = bytearray(b" ".join(b"%d" % n for _ in range(rng.choice([0, 1, 1, 2, 3, 16, 17, 18])) for n in any_declaration(rng)))
    for _ in range(rng.randint(0, 2)):
        at = rng.randint(0, len(text))
        text[at : at + rng.randint(0, 1)] = rng.choice([b"", b" ", b"0", b"9", b"x", b"\0", b"4294967296", bytes([rng.choice([9, 11, 13, 47, 58, 128, 255])])])
    return bytes(text)


def random_lines(seed, count):
    rng = random.Random(seed)
    return [random_line(rng) for _ in range(count)]


# All lists settled by hand, each with its answer.
def fixed_lists():
    return refused_lists() + judged_lists()


# A list as a line.
def list_line(made):
    return " ".join(str(n) for one in made for n in one).encode("ascii")


# All lines settled by hand, each with its answer.
def fixed_lines():
    return [(list_line(made), answer.encode("ascii")) for made, answer in fixed_lists()] + settled_lines()


# The lines of a whole input: those settled by hand, random lists, and random lines.
def made_lines(seed, count):
    made = [line for line, _ in fixed_lines()] + [list_line(one) for one in random_lists(seed, count)]
    return made + random_lines(seed, count // 2)


if __name__ == "__main__":
    sys.stdout.buffer.write(b"".join(line + b"\n" for line in made_lines(int(sys.argv[1]), int(sys.argv[2]))))
