"""Tests that no divider is needed: nothing is divided in admission's code, and no program has a divide instruction."""
import re
import shutil

from support import ROOT, fail, folder, run

PROGRAMS = tuple(sorted(path.parent.parent.name for path in (ROOT / 'crates').glob('*/src/main.rt')))
# What is not run: comments, imports of definitions, and the clauses of contracts.
UNRUN = re.compile(r'//.*|\bghost use [^;]*;|\b(requires|ensures)( \w+)? \{(?:[^{}]|\{[^{}]*\})*\}')
DIVIDES = re.compile(r'^.*\t.*\b[a-z]*div[a-z]*\b.*$', re.M)
# Code that divides, and an instruction that does: what has to be found.
WRITTEN = '// a / b\nfn f(a: u64, b: u64) -> u64 ensures { result ≡ a\n/ b } { a / b } // c\n    a %= b;\n'
BUILT = bytes.fromhex('48f7f1')


def rests_on(crate):
    """A crate of ours and all that it rests on."""
    lines = dict(line.split(':') for line in (ROOT / 'crates.txt').read_text().split('\n') if line)
    return {crate}.union(*(rests_on(other) for other in lines[crate].split())) if crate in lines else set()


def divisions_in(code):
    """The lines of code that divide, or take a remainder."""
    return [line.strip() for line in UNRUN.sub('', code).split('\n') if '/' in line or '%' in line]


def none_written():
    """admission's code, and that beneath it, has no division and no remainder outside contracts"""
    if len(divisions_in(WRITTEN)) != 2:
        fail('a division that is written is not seen')
    crates = sorted(rests_on('admission'))
    for path in (path for crate in crates for path in (ROOT / 'crates' / crate / 'src').rglob('*.rt')):
        for line in divisions_in(path.read_text()):
            fail('%s divides: %s' % (path.relative_to(ROOT), line))
    return 'nothing is divided in the code of %s' % ' and '.join(crates)


def disassembled(reader, *words):
    """What the reader of machine code says of a file, or nothing where it does not know the processor."""
    status, wrote, _ = run([reader, *words])
    return wrote.decode() if status == 0 else ''


def none_built():
    """the built programs have no divide instruction, where there is an objdump that reads x86-64"""
    dividing = folder() / 'dividing'
    dividing.write_bytes(BUILT)
    for reader in ('x86_64-linux-gnu-objdump', 'objdump'):
        if shutil.which(reader) and DIVIDES.search(disassembled(reader, '-D', '-b', 'binary', '-m', 'i386:x86-64', dividing)):
            break
    else:
        return 'whether a program divides is left open: no objdump that reads x86-64 is installed'
    for name in PROGRAMS:
        code = disassembled(reader, '-d', '--no-show-raw-insn', ROOT / 'target' / 'bin' / name)
        if '<main>:' not in code:
            fail('%s does not read %s' % (reader, name))
        divides = DIVIDES.search(code)
        if divides:
            fail('%s divides: %s' % (name, divides.group(0).strip()))
    return 'no divide instruction in %s' % ', '.join(PROGRAMS)
