"""Tests of the tree itself: what the compiler refuses, and the list of must-fail edits."""
import re
import shutil

from support import ROOT, fail, folder, run

# Where the urgent lane asks whether the slot at hand is a cell's last, and where its choice compares two cells; a slot of the fair lane's kind, a
# tag, is put in a slot's stead, and this is what the compiler then says.
ASKED = (
    ('turning.rt', 'is_due(*cell, now)', 'is_due(*cell, units::Tag(0))', b'expected `Slot`, found `Tag`'),
    ('ranking.rt', 'cell.last < than.last', 'cell.last < units::Tag(0)', b'`<` cannot compare `Slot` with `Tag`'),
)


def tags_are_no_slots():
    """a tag cannot stand where a slot is asked for: the compiler refuses it in the urgent lane's own turn, and in its choice"""
    root = folder()
    for name in ('units', 'places', 'urgent'):
        shutil.copytree(ROOT / 'crates' / name, root / 'crates' / name, ignore=shutil.ignore_patterns('out'))
    (root / 'crates.txt').write_text('units:\nplaces:\nurgent: units places\n')
    for name, asked, given, refusal in ASKED:
        file = root / 'crates' / 'urgent' / 'src' / name
        code = file.read_text()
        if code.count(asked) != 1:
            fail('the lane no longer asks `%s`' % asked)
        file.write_text(code.replace(asked, given))
        status, wrote, said = run(['rt', 'check'], cwd=root / 'crates' / 'urgent')
        if status == 0 or refusal not in wrote + said:
            fail('a tag is taken where a slot is asked for:\n' + (wrote + said).decode())
        file.write_text(code)
    return 'a tag cannot stand where a slot is asked for'


def edits_are_listed():
    """docs/CONTRACTS.md names every must-fail edit, and no other"""
    edits = {'%s/%s' % (path.parent.parent.name, path.stem) for path in (ROOT / 'crates').glob('*/must-fail/*.edit')}
    listed = set(re.findall(r'`(\w+/\w+)`', (ROOT / 'docs' / 'CONTRACTS.md').read_text()))
    if edits != listed:
        fail('docs/CONTRACTS.md and the edits differ: %s' % ' '.join(sorted(edits ^ listed)))
    return 'docs/CONTRACTS.md lists the %d must-fail edits' % len(edits)


def promises_are_listed():
    """docs/PROMISES.md names every field of the records of promises"""
    fields = []
    for crate, file, name in (('promises', 'Promises', 'Promises'), ('lists', 'Laws', 'ListPromises'), ('promises_log', 'Promises', 'LogPromises'),
                               ('guarantee', 'Guarantee', 'Guarantee'), ('promises_classes', 'Promises', 'ClassPromises'),
                               ('promises_sharing', 'Promises', 'SharingPromises')):
        record = (ROOT / 'crates' / crate / 'specs' / (file + '.antt')).read_text().split('pub record %s ' % name)[1]
        fields += re.findall(r'^  pub (\S+) :', record, re.M)
    rows = re.findall(r'^\| ([^|]*) \|', (ROOT / 'docs' / 'PROMISES.md').read_text().split('## The promises')[1], re.M)
    named = {name for row in rows for name in row.split(', ')}
    missing = [field for field in fields if field not in named]
    if missing:
        fail('docs/PROMISES.md lacks %s' % ' '.join(missing))
    return 'docs/PROMISES.md names the %d promises' % len(fields)
