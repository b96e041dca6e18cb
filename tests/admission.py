"""A plain model of the admission program.

    admission.py < lists > answers

A line is one list of declarations: numbers B P D B P D .., with one blank between two of them; an empty line is the empty list. A number
is written in decimal with 1 to 10 digits, no zero in front of another digit, and is at most 4,294,967,295. What is no such line is
answered `no 11`. A last line that no line feed ends counts if it has a byte.
"""

import re
import sys

ROUND = 5040  # slots: every period divides them
NUMBER = re.compile(rb"0|[1-9][0-9]{0,9}")
LARGEST = 4294967295


# The refusal of a declaration: 17 for its burst, else 18 for its period, else 14 for its deadline; None if all are good.
def refusal(burst, period, deadline):
    if not 1 <= burst <= 16:
        return 17
    if period < 1 or ROUND % period != 0:
        return 18
    if not 1 <= deadline <= 4096:
        return 14
    return None


# Whether the declared flows can all be served in time, for ever: `admitted`; `rate` if in the long run more cells may come than slots,
# else `fails T` for the first T by which too many may be due. `no 16` if there are too many flows, and `no N K` if declaration K,
# from 0, is the first that has a bad number, with refusal N.
def verdict(declarations) -> str:
    if len(declarations) > 16:
        return "no 16"
    for place, declaration in enumerate(declarations):
        number = refusal(*declaration)
        if number is not None:
            return f"no {number} {place}"
    if sum(ROUND // period for _, period, _ in declarations) > ROUND:
        return "rate"
    # B + floor((t - D) / P) is B at t = D and grows by one at D + P, D + 2P, ...
    last = max((deadline for _, _, deadline in declarations), default=0) + ROUND - 1
    growth = [0] * (last + 1)
    for burst, period, deadline in declarations:
        growth[deadline] += burst
        for t in range(deadline + period, last + 1, period):
            growth[t] += 1
    demand = 0
    for t in range(1, last + 1):
        demand += growth[t]
        if demand > t:
            return f"fails {t}"
    return "admitted"


# The declarations of one line, or None if it is no list.
def declarations_of(line):
    if line == b"":
        return []
    fields = line.split(b" ")
    if len(fields) % 3 != 0 or not all(NUMBER.fullmatch(field) and int(field) <= LARGEST for field in fields):
        return None
    numbers = [int(field) for field in fields]
    return list(zip(numbers[0::3], numbers[1::3], numbers[2::3], strict=True))


# The lines of an input.
def lines_of(given):
    *lines, last = given.split(b"\n")
    return lines + [last] if last else lines


# What one line is answered.
def answer(line) -> str:
    declarations = declarations_of(line)
    return "no 11" if declarations is None else verdict(declarations)


# What a whole input is answered.
def answers(given) -> bytes:
    return "".join(answer(line) + "\n" for line in lines_of(given)).encode("ascii")


if __name__ == "__main__":
    sys.stdout.buffer.write(answers(sys.stdin.buffer.read()))
