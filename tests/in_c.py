"""Tests of the station for programs in C: sessions through the archive, the example, the header's constants and its warning."""
import platform
import re
import shutil

import bad_numbers
import classes
import closings
import named
import own_deadlines
import reference
import sessions
from playing import LINES
from support import ROOT, build, compare, fail, folder, played, run

HEADER = ROOT / 'include' / 'tuhkeliar.h'
EXAMPLE = b"""sent cell 1 of flow 0, missed 1
sent none, missed 0
sent cell 0 of flow 0, missed 0
packet 0: start 0, finish 36036000
begun: 100 bytes of flow 0
flow 0 stays open while its packet is in service
"""
DROPPED = '#include "tuhkeliar.h"\nvoid dropped(tuhkeliar_station station);\nvoid dropped(tuhkeliar_station station) { tuhkeliar_begin(station); }\n'
LIMITS = {'FLOWS': 16, 'PLACES': 16, 'CLASSES': 31, 'MOST_DEADLINE': 4096, 'MOST_WEIGHT': 16, 'MOST_LENGTH': 1500, 'SLOT_LIMIT': 4 * 10 ** 9, 'TAG_LIMIT': 2 ** 62}


def compiler():
    """The C compiler for x86-64, or None."""
    return shutil.which('gcc' if platform.machine() == 'x86_64' else 'x86_64-linux-gnu-gcc')


def built(source, name):
    """A program in C over the archive, linked by README's line."""
    build(['tuhkeliar_c'])
    program = folder() / name
    warned = ['-O2', '-std=c11', '-Wall', '-Wextra', '-Werror', '-I', ROOT / 'include']
    linked = [compiler(), *warned, source, '-L', ROOT / 'target' / 'staticlib', '-ltuhkeliar_c', '-o', program]
    status, wrote, said = run(linked, cwd=ROOT)
    if status != 0:
        fail('%s ended with status %d:\n%s' % (linked[0], status, (wrote + said).decode()))
    return program


def commands(given, replies):
    """The lines of a session that are commands, and the replies to them."""
    pairs = zip(given.split(b'\n'), replies.split(b'\n'))
    kept = [(line, reply) for line, reply in pairs if reply not in (b'', b'no 11')]
    return [b''.join(line + b'\n' for line in side) for side in zip(*kept)]


def station_in_c():
    """a program in C that links the static library plays commands: all sessions worked out by hand and a random one"""
    if compiler() is None:
        return 'the station in C is left out: no C compiler for x86-64 is installed'
    program = built(ROOT / 'tests' / 'station.c', 'station')
    kept = {'worked': named.worked()[0], 'random': sessions.random_session(1, LINES)}
    kept.update((name, given) for name, (given, _) in {**closings.closings(), **bad_numbers.bad_numbers(), **own_deadlines.sessions()}.items())
    for name, given in kept.items():
        compare('%s in C' % name, *commands(given, reference.session(given)), program)
    return 'the station in C plays the worked session, those that close flows, give bad numbers or give cells their own deadlines, and a random one'


def classes_in_c():
    """a program in C that links the static library describes trees and plays their calls: all sessions worked out by hand and a random one"""
    if compiler() is None:
        return 'the class lane in C is left out: no C compiler for x86-64 is installed'
    program = built(ROOT / 'tests' / 'sharing.c', 'sharing')
    kept = {name: given for name, (given, _) in {**classes.worked(), **classes.refused()}.items()}
    kept['random'] = classes.RandomClasses(1).bytes(LINES)
    for name, given in kept.items():
        compare('%s in C' % name, *commands(given, reference.by_class(given)), program)
    return 'the class lane in C plays the %d sessions worked out by hand and a random one' % (len(kept) - 1)


def example_in_c():
    """examples/station.c links and says what it should, and a by-value call whose station is dropped is warned of"""
    if compiler() is None:
        return 'the example in C is left out: no C compiler for x86-64 is installed'
    wrote = played(b'', built(ROOT / 'examples' / 'station.c', 'example'))
    if wrote != EXAMPLE:
        fail('examples/station.c says\n' + wrote.decode())
    source = folder() / 'dropped.c'
    source.write_text(DROPPED)
    status, _, said = run([compiler(), '-c', '-Werror', '-I', ROOT / 'include', source, '-o', source.with_suffix('.o')])
    if status == 0 or b'unused-result' not in said:
        fail('a dropped station is not warned of:\n' + said.decode())
    return 'the example in C, and the warning of a dropped station'


def header_constants():
    """include/tuhkeliar.h has every refusal by its number, and the rules' limits"""
    header, code = HEADER.read_text(), (ROOT / 'crates' / 'units' / 'src' / 'lib.rt').read_text()
    refusals = {re.sub(r'(?<=[a-z])(?=[A-Z])', '_', word).upper(): int(number) for word, number in re.findall(r'^    (\w+) = (\d+),$', code.split('pub enum Refusal {')[1].split('}')[0], re.M)}
    named_there = {name: int(number) for name, number in re.findall(r'TUHKELIAR_(\w+) = (\d+)', header.split('The refusals, by their numbers.')[1])}
    if named_there != refusals or len(refusals) != 18:
        fail('the refusals of the header differ: %r' % sorted(named_there.items() ^ refusals.items()))
    limits = {name: int(number) for name, number in re.findall(r'#define TUHKELIAR_(\w+) (?:UINT64_C\()?(\d+)', header) if name != 'VERSION'}
    if limits != LIMITS:
        fail('the limits of the header differ: %r' % sorted(limits.items() ^ LIMITS.items()))
    return 'the header has the %d refusals and the limits' % len(refusals)
