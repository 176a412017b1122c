"""Patch texts of random files, as diff, git, svn and mails write them; the filters' scenarios are made of these."""
import subprocess
import tempfile
from pathlib import Path

NAMES = ['main.c', 'src/main.c', 'src/lib/util.c', 'include/util.h', 'doc/read me.txt', 'Makefile', 'debian/control',
         'src/lib/deep/er/x.c', 'po/de.po', 'NEWS', 'src/odd-name+.h']
LINES = ['int main(void)', '{', '}', '\tfree(p);', '    return 0;', '', '#include <stdio.h>', 'static int count(struct list *l)',
         '  if (a | b) x++;', 'Version: 1.2', 'all: build', '/* freed later */', 'a', 'b', 'c', 'while (n--)', 'free[0] = NULL;']
ODD_LINES = ['-- a line of SQL', '++i;', '-', '@@ -1 +1 @@', '*** 1,2 ****', '--- 1 ----', 'diff --git a/x b/x', '+ plus', 'Index: x', '\x0c']
FRONT = ['A text in front.', '', 'It says what is changed, and why.', ' x | 3 ++-', '---', 'Signed-off-by: Some One <one@example.org>',
         '# a remark', '=== modified file', 'Only in b: y.o', '- a point', '+ another', 'Description: mend it', 'diff is a word here']
MAIL = ['From 0123456789abcdef0123456789abcdef01234567 Mon Sep 17 00:00:00 2001', 'From: Some One <one@example.org>',
        'Date: Tue, 3 Mar 2020 10:00:00 +0100', 'Subject: [PATCH 1/2] mend it', '']
EPOCHS = ['1970-01-01 00:00:00.000000000 +0000', '1970-01-01 01:00:00.000000000 +0100', 'Thu Jan  1 00:00:00 1970', '1970-01-01 00:00:00']
STAMPS = ['2020-03-03 10:00:00.123456789 +0100', '2020-03-03 10:00:00', 'Tue Mar  3 10:00:00 2020', '1999-12-31 23:15:00.000000000 -0500']


class Change:
    """One file before and after: None where it isn't there."""

    def __init__(self, name, old, new):
        self.name, self.old, self.new = name, old, new


def lines_of(random, most):
    """Some lines of a file, an odd one now and then."""
    count = random.randrange(1, most)
    return [random.choice(ODD_LINES if random.random() < 0.02 else LINES) for _ in range(count)]


def edited(random, lines):
    """The lines with a few edits at places of their own."""
    new = list(lines)
    for _ in range(random.choice([1, 1, 2, 3, 4])):
        at = random.randrange(len(new) + 1)
        new[at:at + random.choice([0, 0, 1, 1, 2])] = lines_of(random, 3) if random.random() < 0.8 else []
    return new if new != lines else lines + ['a last line']


def bytes_of(random, lines):
    """The file of these lines; the last line feed is missing now and then."""
    data = '\n'.join(lines).encode()
    return data if random.random() < 0.06 and lines[-1:] != [''] else data + b'\n'


def change(random, name):
    """A change of this file: edited most often, else made or removed."""
    lines = lines_of(random, random.choice([6, 30, 60]))
    kind = random.random()
    if kind < 0.12:
        return Change(name, None, bytes_of(random, lines))
    if kind < 0.22:
        return Change(name, bytes_of(random, lines), None)
    return Change(name, bytes_of(random, lines), bytes_of(random, edited(random, lines)))


def changes(random, most=5, again=0.12):
    """Changes of a few files; a name comes again now and then."""
    names = random.sample(NAMES, random.randrange(1, most))
    while random.random() < again:
        names.append(random.choice(names))
    return [change(random, name) for name in names]


def hunks(change, words):
    """The hunks that `diff` makes of a change, without the two header lines."""
    with tempfile.TemporaryDirectory() as place:
        sides = []
        for side, data in (('old', change.old), ('new', change.new)):
            path = Path(place, side)
            path.write_bytes(data or b'')
            sides.append(str(path))
        out = subprocess.run(['diff', '-a', *words, '--label', 'o', '--label', 'n', *sides], stdout=subprocess.PIPE, check=False).stdout
    return out.split(b'\n', 2)[2] if out else b''


class Style:
    """How the headers of a text are written; chosen once for all of it."""

    def __init__(self, random, form, context='-u'):
        self.random, self.form = random, form
        self.words = [context if random.random() < 0.8 else random.choice([context.upper() + '0', context.upper() + '1'])]
        self.words += ['-p'] if form in ('git', 'mail') or random.random() < 0.3 else []
        self.marks = ('***', '---') if context == '-c' else ('---', '+++')
        self.sides = random.choice([('a/', 'b/'), ('a/', 'b/'), ('old-1.0/', 'new-1.0/'), ('', ''), ('x.orig/', 'x/')])
        self.stamps = random.choice([None, STAMPS[0], STAMPS[0], random.choice(STAMPS)]) if form == 'diff' else None
        self.command = random.choice([None, 'diff -ruN', 'diff -u', 'diff -r 012 -r 345']) if form == 'diff' else None
        self.null = form in ('git', 'mail') or random.random() < 0.3
        self.epoch = random.choice(EPOCHS[:2] if random.random() < 0.7 else EPOCHS)

    def label(self, name, side, there, epoch_there):
        """A name with what stands behind it."""
        if not there and self.null:
            return '/dev/null' + (f'\t{self.epoch}' if self.stamps else '')
        if self.form == 'svn':
            absent = self.random.choice(['nonexistent', 'revision 0'])
            return f'{name}\t({absent if not there else "working copy" if side else "revision 5"})'
        stamp = self.stamps and (self.stamps if there else self.epoch)
        blank = '\t' if ' ' in name and self.form in ('git', 'mail') else ''
        return self.sides[side] + name + (f'\t{stamp}' if stamp else blank)

    def block(self, change):
        """The lines in front of the header lines."""
        if self.form == 'svn':
            return [f'Index: {change.name}', '=' * 67]
        if self.form in ('git', 'mail'):
            return git_block(self.random, change)
        if self.command is None:
            return []
        if '-r 0' in self.command:
            return [f'{self.command} {change.name}']
        return [f'{self.command} {self.sides[0]}{change.name} {self.sides[1]}{change.name}']

    def header(self, change, before=''):
        """The two header lines; before stands in front of the old name."""
        old = self.label(before + change.name, 0, change.old is not None, True)
        new = self.label(change.name, 1, change.new is not None, False)
        return [f'{self.marks[0]} {old}', f'{self.marks[1]} {new}']

    def file_patch(self, change):
        """One file patch, with its block; nothing where nothing is changed."""
        block = self.block(change)
        moved = any(line.startswith(('rename from ', 'copy from ')) for line in block)
        lines = block + self.header(change, 'before/' if moved else '')
        body = hunks(change, self.words)
        return '\n'.join(lines).encode() + b'\n' + body if body else b''


def git_block(random, change):
    """The lines of git in front of the header lines of a change."""
    block = [f'diff --git a/{change.name} b/{change.name}']
    if change.old is None:
        return block + ['new file mode 100644', 'index 0000000..257cc56']
    if change.new is None:
        return block + ['deleted file mode 100644', 'index 257cc56..0000000']
    extra = random.random()
    if extra < 0.1:
        return block + ['old mode 100644', 'new mode 100755', 'index 83db48f..bf269f4']
    if extra < 0.2:
        word = random.choice(['rename', 'copy'])
        block = [f'diff --git a/before/{change.name} b/{change.name}', 'similarity index 90%']
        return block + [f'{word} from before/{change.name}', f'{word} to {change.name}', 'index 83db48f..bf269f4 100644']
    return block + ['index 83db48f..bf269f4 100644']


def git_alone(random):
    """A file patch of git without hunks, and whether it is one of a binary change."""
    name = random.choice(NAMES[:4])
    block = [f'diff --git a/{name} b/{name}']
    kind = random.choice(['modes', 'rename', 'made', 'removed', 'binary', 'literal'])
    more = {'modes': ['old mode 100644', 'new mode 100755'], 'rename': ['similarity index 100%', f'rename from {name}', f'rename to x/{name}'],
            'made': ['new file mode 100644', 'index 0000000..e69de29'], 'removed': ['deleted file mode 100644', 'index e69de29..0000000'],
            'binary': ['index 83db48f..bf269f4 100644', f'Binary files a/{name} and b/{name} differ'],
            'literal': ['index 83db48f..bf269f4 100644', 'GIT binary patch', 'literal 1', 'Ic$_*M0ssI2', '', 'literal 1', 'Ic$_*M0ssI1', '']}
    return '\n'.join(block + more[kind]).encode() + b'\n'


def front(random, context='-u'):
    """Some lines of text outside of file patches; behind a context hunk none that could be one of its lines."""
    lines = [line for line in FRONT if context == '-u' or line[:2] not in ('- ', '+ ')]
    return ''.join(random.choice(lines) + '\n' for _ in range(random.randrange(1, 5))).encode()


def behind(random, form, context):
    """What stands behind the last file patch."""
    if form == 'mail':
        return b'-- \n2.39.2\n\n'
    if form == 'svn' and random.random() < 0.3:
        return b'\nProperty changes on: x\n' + b'_' * 67 + b'\nAdded: svn:eol-style\n   + native\n'
    return front(random, context) if random.random() < 0.2 else b''


def text(random, form=None, context=None, most=5, again=0.12, plain=False):
    """A patch text; a plain one has nothing outside of its file patches."""
    form = form or random.choice(['diff', 'diff', 'git', 'git', 'svn', 'mail'])
    context = context or ('-c' if form == 'diff' and random.random() < 0.4 else '-u')
    style = Style(random, form, context)
    parts = [b''.join(f'{line}\n'.encode() for line in MAIL)] if form == 'mail' else []
    between = 0.0 if plain else 0.2
    for one in changes(random, most, again):
        parts.append(front(random, context) if random.random() < between else b'')
        parts.append(git_alone(random) if form in ('git', 'mail') and random.random() < between / 2 else b'')
        parts.append(style.file_patch(one))
    parts.append(b'' if plain else behind(random, form, context))
    return b''.join(parts)


def damaged(random, data):
    """The text with one line or a few changed, cut, doubled or dropped."""
    lines = data.splitlines(keepends=True)
    at = random.randrange(len(lines))
    kind = random.choice(['drop', 'double', 'mark', 'cut', 'count', 'swap', 'blank', 'tab', 'end'])
    if kind == 'drop':
        del lines[at]
    elif kind == 'double':
        lines.insert(at, lines[at])
    elif kind == 'mark':
        lines[at] = random.choice([b'x', b' ', b'+', b'-', b'!', b'']) + lines[at][1:]
    elif kind == 'cut':
        del lines[at + 1:]
    elif kind == 'count':
        lines[at] = lines[at].replace(b',3', b',4').replace(b',6', b',5').replace(b' @@', random.choice([b' @', b'']))
    elif kind == 'swap':
        other = random.randrange(len(lines))
        lines[at], lines[other] = lines[other], lines[at]
    elif kind == 'blank':
        lines = [b'\n' if line == b' \n' else line for line in lines]
    elif kind == 'tab':
        lines = [line[1:] if line.startswith(b' \t') else line for line in lines]
    else:
        lines[-1] = lines[-1].rstrip(b'\n')
    return b''.join(lines)
