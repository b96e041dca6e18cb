"""Tests of the entry ./tuhkeliar: from wherever it is called, its words, and what it lacks."""
import os
import re
import shutil

import named
from support import ROOT, fail, folder, run

NOBODY = 65534


def tree(at):
    """A tree at a path that has all of this one that a run with nothing to build looks at."""
    at.mkdir()
    for name in ('tuhkeliar', 'crates.txt'):
        shutil.copy(ROOT / name, at / name)
    for name in ('tools', 'target/stamp', 'target/bin'):
        shutil.copytree(ROOT / name, at / name)
    (at / 'crates').symlink_to(ROOT / 'crates')
    return at


def without_kit():
    """A PATH with what the entry and the tests use, but no rt."""
    path = folder()
    for name in ('bash', 'cat', 'dirname', 'env', 'flock', 'mkdir', 'python3', 'readlink', 'sed', 'setsid'):
        found = shutil.which(name)
        if found is None:
            fail('%s is missing' % name)
        (path / name).symlink_to(found)
    return {**os.environ, 'PATH': str(path)}


def silent(what, command, given, expected, **how):
    """The command answers as expected and says nothing."""
    status, wrote, said = run(command, given, **how)
    if (status, wrote, said) != (0, expected, b''):
        fail('%s: status %d, wrote %r, said %r' % (what, status, wrote, said))


def refused(what, line, command, **how):
    """The command writes nothing, ends with a status that is not 0, and says one line that has these words."""
    status, wrote, said = run(command, b't\n', **how)
    if status == 0 or wrote != b'' or said.count(b'\n') != 1 or line not in said:
        fail('%s: status %d, wrote %r, said %r' % (what, status, wrote, said))


def from_anywhere():
    """the entry is right through symlinks, with CDPATH, from another folder, in a path with blanks, and says nothing where all is built"""
    given, replies = named.worked()
    room = folder()
    home = tree(room / 'a path  with blanks')
    links = room / 'links'
    links.mkdir()
    (links / 'far').symlink_to(home / 'tuhkeliar')
    (links / 'chain').symlink_to('far')
    (room / 'folder').symlink_to(home)
    (links / 'through').symlink_to('../folder/tuhkeliar')
    misleading = {**os.environ, 'CDPATH': '%s:%s' % (room, ROOT)}
    for what, command, how in (
        ('in a path with blanks', './tuhkeliar', {'cwd': home}),
        ('from another folder', home / 'tuhkeliar', {'cwd': '/'}),
        ('from the folder above', './a path  with blanks/tuhkeliar', {'cwd': room}),
        ('through a symlink in another folder', links / 'far', {'cwd': '/'}),
        ('through a chain of symlinks', './chain', {'cwd': links}),
        ('through a symlink and a folder that is one', './through', {'cwd': links}),
        ('with CDPATH', 'folder/tuhkeliar', {'cwd': room, 'env': misleading}),
        ('with CDPATH, by PATH', 'chain', {'cwd': room, 'env': {**misleading, 'PATH': '%s:%s' % (links, os.environ['PATH'])}}),
        ('by bash', 'bash', {'cwd': home}),
    ):
        words = [command, 'tuhkeliar'] if command == 'bash' else ['env', command]
        silent(what, words, given, replies, **how)
    silent('admit', [links / 'chain', 'admit'], b'1 2 1 1 2 2\n1 2 1 1 2 1\n\n', b'admitted\nfails 1\nadmitted\n')
    silent('classes', [links / 'chain', 'classes'], b'b\nK 0 17\nS\n', b'no 11\nok\nno 27\n')
    return 'the entry is right from wherever it is called'


def examples():
    """the sessions and lists that README and the pages on classes and on the guarantee show are answered as they say"""
    shown = re.compile(r"^    \$ (printf '[^']*' \| \./tuhkeliar(?: admit| classes)?)\n((?:    [^ $].*\n)+)", re.M)
    found = [(page, *one) for page in ('README.md', 'docs/CLASSES.md', 'docs/GUARANTEE.md') for one in shown.findall((ROOT / page).read_text())]
    for page, command, replies in found:
        expected = ''.join(re.split('  +', line.strip())[0] + '\n' for line in replies.splitlines())
        silent('%s: %s' % (page, command), ['bash', '-c', command], b'', expected.encode(), cwd=ROOT)
    if len(found) < 7:
        fail('README, docs/CLASSES.md and docs/GUARANTEE.md show %d sessions and lists' % len(found))
    return 'the %d sessions and lists that README, docs/CLASSES.md and docs/GUARANTEE.md show are answered as they say' % len(found)


def words():
    """the entry's --help lists its words; an unknown word, or one too many, lists them on standard error"""
    at = {'env': without_kit()}
    status, listed, said = run([ROOT / 'tuhkeliar', '--help'], **at)
    lines = listed.decode().split('\n')
    if status != 0 or said != b'' or not {'admit', 'classes'} <= {line.split()[0] for line in lines if line.split()}:
        fail('--help: status %d, wrote %r, said %r' % (status, listed, said))
    silent('-h', [ROOT / 'tuhkeliar', '-h'], b'', listed, **at)
    for given in (['nothing'], [''], ['admit', 'admit'], ['admit', '--help'], ['--help', 'admit'], ['tuhkeliar']):
        status, wrote, said = run([ROOT / 'tuhkeliar', *given], **at)
        if status == 0 or wrote != b'' or not said.endswith(listed):
            fail('%r: status %d, wrote %r, said %r' % (given, status, wrote, said))
    return 'the entry lists its words'


def lacks():
    """without the kit, or where target/ cannot be written, the entry says so in one line, and writes nothing"""
    home = tree(folder() / 'tree')
    refused('without the kit', b'no rt on PATH', [home / 'tuhkeliar'], env=without_kit())
    target = home / 'target'
    shutil.rmtree(target)
    target.write_text('')
    refused('target/ is a file', b'target cannot be written', [home / 'tuhkeliar'])
    target.unlink()
    target.mkdir()
    target.chmod(0o555)
    as_nobody = ['setpriv', '--reuid=%d' % NOBODY, '--regid=%d' % NOBODY, '--clear-groups']
    prefix = as_nobody if os.getuid() == 0 else []
    refused('target/ cannot be written', b'target cannot be written', [*prefix, home / 'tuhkeliar'])
    target.chmod(0o755)
    (target / 'build').mkdir()
    (target / 'build' / 'tuhkeliar.log').mkdir()
    refused('its log cannot be written', b'target cannot be written', [home / 'tuhkeliar'])
    return 'the entry says what it lacks'
