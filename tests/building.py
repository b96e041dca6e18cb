"""Tests of the first run and of being ended early: what is built, told and left behind."""
import os
import pathlib
import shutil
import signal
import subprocess
import time

import entry
from support import ROOT, fail, folder, run, start

MAIN = '// Writes one.\n#![tactic(auto)]\n\nfn main(rt: HostRuntime) -> std::io::Result<()> {\n    let one = low::one();\n    print!(rt; "{one}")\n}\n'
PROGRESS = b'tuhkeliar: proving and building tuhkeliar: 2 crates\n[1/2] low\n[2/2] tuhkeliar\n'


def low(value='1'):
    """The text of the crate below, which no run before has proved: rt would take what that kept."""
    return '// One, of run %s.\n#![tactic(auto)]\n\npub fn one() -> u64 {\n    %s\n}\n' % (os.urandom(8).hex(), value)


def small(at):
    """A tree with the entry of this one and a program that rests on one crate and writes 1."""
    shutil.copytree(ROOT / 'tools', at / 'tools')
    shutil.copy(ROOT / 'tuhkeliar', at / 'tuhkeliar')
    for name, text in (
        ('crates.txt', '# the program is last\nlow:\nother: low\ntuhkeliar: low\n'),
        ('crates/low/src/lib.rt', low()),
        ('crates/other/src/lib.rt', low()),
        ('crates/tuhkeliar/src/main.rt', MAIN),
        ('crates/tuhkeliar/stdout', '1'),
    ):
        (at / name).parent.mkdir(parents=True, exist_ok=True)
        (at / name).write_text(text)
    return at


def at_work(place):
    """The processes that have a path in their words or their surroundings, and are not this one."""
    found = []
    for one in pathlib.Path('/proc').glob('[0-9]*'):
        try:
            known = (one / 'cmdline').read_bytes() + (one / 'environ').read_bytes()
        except OSError:
            continue
        if str(place).encode() in known and int(one.name) != os.getpid():
            found.append(one.name)
    return found


def within(seconds, what, holds):
    """Waits until something holds."""
    until = time.monotonic() + seconds
    while not holds():
        if time.monotonic() > until:
            fail(what)
        time.sleep(0.05)


def first_run():
    """the first run proves and builds what the program needs and tells so; then it says nothing; a failure names rt's output"""
    home = small(folder() / 'small')
    command = [home / 'tuhkeliar']
    expected = (0, b'1', PROGRESS)
    got = run(command)
    if got != expected:
        fail('the first run: %r' % (got,))
    entry.silent('the second run', command, b'', b'1')
    (home / 'crates' / 'low' / 'src' / 'lib.rt').write_text(low())
    both = [start(command, stdin=subprocess.DEVNULL, stdout=subprocess.PIPE, stderr=subprocess.PIPE) for _ in range(2)]
    if [one.communicate()[0] for one in both] != [b'1', b'1']:
        fail('two runs at once break each other')
    (home / 'crates' / 'low' / 'src' / 'lib.rt').write_text(low('1 - 2'))
    status, wrote, said = run(command)
    log = home / 'target' / 'build' / 'tuhkeliar.log'
    lines = said.decode().split('\n')
    if status == 0 or wrote != b'' or lines[1] != '[1/2] low: not proved' or str(log) not in lines[-2]:
        fail('a crate that is not proved: status %d, wrote %r, said %r' % (status, wrote, said))
    if 'logic=not-proved' not in log.read_text():
        fail('the log of a failure lacks what rt said')
    return 'the first run tells what it builds, the next says nothing, and a failure names what rt said'


def ended_early():
    """a build, and a run of the tests, that are ended early leave no process and no folder behind"""
    room = folder()
    home = small(room / 'small')
    ended = start([home / 'tuhkeliar'], stdin=subprocess.DEVNULL, stdout=subprocess.PIPE, stderr=subprocess.PIPE)
    within(60, 'the build does not set out', (home / 'crates' / 'low' / 'out').exists)
    os.kill(ended.pid, signal.SIGTERM)
    if ended.wait() != -signal.SIGTERM:
        fail('a build ended early has status %d' % ended.returncode)
    within(5, 'a build ended early leaves processes', lambda: not at_work(home))
    for number in (signal.SIGTERM, signal.SIGINT):
        temporary = folder()
        ended = start([ROOT / 'tests' / 'run', 'types'], stdin=subprocess.DEVNULL, stdout=subprocess.PIPE, stderr=subprocess.PIPE, env={**os.environ, 'TMPDIR': str(temporary)})
        within(60, 'the test does not set out', lambda: list(temporary.glob('*/*/crates/units/out')))
        os.kill(ended.pid, number)
        said = ended.communicate()[1]
        if ended.returncode != 128 + number or said != b'tests/run: types: ended early\n':
            fail('a test ended early has status %d and says %r' % (ended.returncode, said))
        if at_work(temporary) or list(temporary.iterdir()):
            fail('a test ended early leaves something behind')
    return 'ended early, a build and a run of the tests leave nothing behind'


def own_words():
    """tests/run lists its names, knows no other, and says in one line which tool is missing"""
    tests = [ROOT / 'tests' / 'run']
    status, listed, said = run([*tests, '--list'])
    if status != 0 or said != b'' or not listed.startswith(b'types '):
        fail('--list: status %d, wrote %r, said %r' % (status, listed, said))
    status, wrote, said = run([*tests, 'nothing'])
    if status == 0 or wrote != b'' or not said.endswith(listed):
        fail('an unknown name: status %d, wrote %r, said %r' % (status, wrote, said))
    bare = entry.without_kit()
    for name, last in (('types', b'tests/run: types: rt is missing\n'), ('worked', b'tests/run: build: not built: tuhkeliar\n')):
        status, wrote, said = run([*tests, name], env=bare)
        if status == 0 or wrote != b'' or b'Traceback' in said or not said.endswith(last):
            fail('%s without the kit: status %d, wrote %r, said %r' % (name, status, wrote, said))
    return 'tests/run lists its names and says which tool is missing'
