"""Wrong stations whose definition, code and lemmas agree: each one's own crate proves it, and the promises refuse it."""
import shutil
from concurrent.futures import ThreadPoolExecutor

from support import ROOT, fail, folder, run

# What is wrong, the crate that is changed and still proved, the promises that refuse it, a law of theirs that fails by itself, and
# the changes: file, old text, new text.
STATIONS = [
    (
        'closing starts a flow\'s numbers again', 'urgent', 'promises_urgent', 'kept_close', [
            ('specs/Calls.antt', 'opened = false; deadline = (flow_at u flow).deadline; next = (flow_at u flow).next', 'opened = false; deadline = (flow_at u flow).deadline; next = 0'),
            ('src/closing.rt', 'self.flows[f].opened = false;', 'self.flows[f] = crate::Flow { opened: false, next: 0, ..self.flows[f] };'),
        ],
    ),
    (
        'a drain leaves virtual time at the last start', 'fair', 'promises_fair', 'kept_end', [
            ('specs/Calls.antt', '(largest_ended u) u.time', 'u.time u.time'),
            ('src/lib.rt', 'self.time = self.largest;', 'self.time = self.time;'),
            ('proofs/Calls.antt', 'time_left u ≡ largest_ended u', 'time_left u ≡ u.time'),
        ],
    ),
    (
        'packets are served by their finish tags', 'packets', 'promises_fair', 'begins_first', [
            ('specs/Queue.antt', 'by_start start finish = start', 'by_start start finish = finish'),
            ('src/ranking.rt', 'packet.start != than.start', 'packet.finish != than.finish'),
            ('src/ranking.rt', 'tags::earlier(packet.start, than.start)', 'tags::earlier(packet.finish, than.finish)'),
        ],
    ),
    (
        'a begin is written with its number before its flow', 'replies', 'promises', 'replies_spelled', [
            ('specs/Printing.antt', '(decimal_of flow ∷ decimal_of number ∷ decimal_of start.0 ∷ [])', '(decimal_of number ∷ decimal_of flow ∷ decimal_of start.0 ∷ [])'),
            ('src/writing.rt', '[flow, number, start.0]', '[number, flow, start.0]'),
        ],
    ),
]


def needed(name, rests_on):
    """The crates of the tree that a crate rests on, and itself."""
    return set().union({name}, *(needed(other, rests_on) for other in rests_on[name] if other in rests_on))


def built(station):
    """A tree with the wrong station; of the crates that it leaves as they are, rt takes what another tree here has proved."""
    what, changed, promises, _, changes = station
    lines = [line for line in (ROOT / 'crates.txt').read_text().split('\n') if line]
    rests_on = {head.split()[0]: rest.split() for head, rest in (line.split(':') for line in lines)}
    names, root = needed(promises, rests_on), folder()
    for name in names:
        shutil.copytree(ROOT / 'crates' / name, root / 'crates' / name, ignore=shutil.ignore_patterns('out'))
    (root / 'crates.txt').write_text(''.join(line + '\n' for line in lines if line.split(':')[0] in names))
    for file, old, new in changes:
        path = root / 'crates' / changed / file
        text = path.read_text()
        if old not in text:
            fail('%s: %s has no `%s` any more' % (what, file, old))
        path.write_text(text.replace(old, new))
    return root


def refused(station):
    """Whether the station's own crate proves it and the promises refuse it; what was said, where not."""
    what, changed, promises, law, _ = station
    root = built(station)
    status, wrote, said = run(['rt', 'check'], cwd=root / 'crates' / changed)
    if status != 0:
        return '%s: %s does not prove it:\n%s' % (what, changed, (wrote + said).decode())
    status, wrote, said = run(['rt', 'check'], cwd=root / 'crates' / promises)
    told = (wrote + said).decode()
    fails = any('error: `%s`' % law in line and 'was not admitted' not in line for line in told.split('\n'))
    if status != 1 or not fails:
        return '%s: %s does not refuse it by %s:\n%s' % (what, promises, law, told)
    return None


def wrong_stations():
    """stations whose definition and code are wrong together are proved by their own crates and refused by the promises"""
    with ThreadPoolExecutor(max_workers=2) as pool:
        for answer in pool.map(refused, STATIONS):
            if answer is not None:
                fail(answer)
    return '%d wrong stations, each proved by its own crate, are refused by the promises' % len(STATIONS)
