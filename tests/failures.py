"""Tests of a read or a write that fails: one line on standard error, and a status that is not 0."""
import os
import pty
import subprocess
import tty

from support import ROOT, fail, folder, run, start

UNREAD = b'tuhkeliar: the input could not be read\n'
UNWRITTEN = b'tuhkeliar: the output could not be written\n'
ENTRY = [ROOT / 'tuhkeliar']


def tells(what, got, wrote, said):
    """The run ended with a status that is not 0, and wrote and said this."""
    if got[0] == 0 or got[1:] != (wrote, said):
        fail('%s: status %d, wrote %r, said %r' % (what, *got))


def redirected(words, given=b't\nx\n'):
    """What the entry does with its descriptors as the shell's words say."""
    return run(['bash', '-c', '"$0" ' + words, ROOT / 'tuhkeliar'], given, cwd=folder())


def writes():
    """a write that fails is told: a full device, a closed output, a pipe that nobody reads"""
    tells('a full device', redirected('>/dev/full'), b'', UNWRITTEN)
    tells('a full device, at the last line', redirected('>/dev/full', b't'), b'', UNWRITTEN)
    tells('a closed output', redirected('>&-'), b'', UNWRITTEN)
    tells('a closed output, standard error closed too', redirected('>&- 2>&-'), b'', b'')
    tells('a closed output of --help', redirected('--help >&-'), b'', UNWRITTEN)
    if redirected('>/dev/full', b'')[0] != 0:
        fail('nothing to write, and a failure is told')
    entry = start(ENTRY, stdin=subprocess.PIPE, stdout=subprocess.PIPE, stderr=subprocess.PIPE)
    entry.stdin.write(b't\n')
    entry.stdin.flush()
    first = entry.stdout.readline()
    entry.stdout.close()
    entry.stdin.write(b't\n')
    entry.stdin.close()
    said = entry.stderr.read()
    tells('a pipe that nobody reads', (entry.wait(), first, said), b'idle missed 0\n', UNWRITTEN)
    return 'a write that fails is told'


def reads():
    """a read that fails is told: a closed input, a folder, a terminal that is gone, after the replies to what came before"""
    tells('a closed input', redirected('<&-'), b'', UNREAD)
    tells('a folder', redirected('<.'), b'', UNREAD)
    tells('a closed input and output', redirected('<&- >&-'), b'', UNREAD)
    ours, theirs = pty.openpty()
    tty.setraw(theirs)
    os.write(theirs, b't\nx\nt')
    os.close(theirs)
    got = run(ENTRY, stdin=ours)
    os.close(ours)
    tells('a terminal that is gone', got, b'idle missed 0\nidle missed 0\n', UNREAD)
    return 'a read that fails is told'


def both(word, given):
    """A read and a write of the program that the entry's word picks fail, are told by that word, and nothing is written."""
    for what, words, told in (
        ('a full device', '>/dev/full', 'the output could not be written'),
        ('a closed output', '>&-', 'the output could not be written'),
        ('a closed input', '<&-', 'the input could not be read'),
        ('a folder', '<.', 'the input could not be read'),
    ):
        tells('%s: %s' % (word, what), redirected('%s %s' % (word, words), given), b'', b'%s: %s\n' % (word.encode(), told.encode()))
