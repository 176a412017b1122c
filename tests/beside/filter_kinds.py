"""Kinds of scenarios of the filters: a patch text or two, and a call of one tool."""
import bz2
import gzip

import filter_texts as texts
from case import Case, Entry, Run, kind

def rows(*calls):
    """The words of each call."""
    return [call.split() for call in calls]


SELECT = rows('', '', '-i *.c', '-x *.c', '-p1 -i src/*', '-p1 -x src/* -x Makefile', '-i */main.c -i *util*', '--include=*.[ch]', '--exclude=*a*',
              '-p2 -i main.c', '--strip-match=1 -i debian/*', '-I patterns', '-X patterns', '-p1 --include-from-file=patterns', '-i * -x *.h',
              '-p1 -i src/lib/?til.c')
LISTS = rows('', '', '', '', '--strip=1', '--strip=1', '--strip=1', '--strip=2', '--strip=9', '--strip 1', '-p1', '--addprefix=new/',
             '--strip=1 --addprefix=x', '--addoldprefix=x/', '-h')
NUMBERS = rows(*['-n'] * 8, *['-n --strip=1'] * 4, '--line-number', '-N', '-nN', '-nv', '-n -v', '-nvv', '-nH', '-NH', '-v', '-nv --hunks=2',
               '-nv --lines=1-9', '--number-files -s')
STATUS = rows(*['-s'] * 4, '-sn', '-ns', '--status', '-s --strip=1', '-sE', '-s --empty-files-as-absent', '-E', '-sE --addprefix=x/')
NUMBER_RANGES = ['1', '2', '1,2', '2-', '-2', '1-2', 'x1', 'x2-', 'x1,3-', '1-1,3', '0', '-', '3-1', '', '4', '2,2', 'a']
LINE_RANGES = ['1', '1-5', '-5', '10-20', '20-', '0-50', '-50', 'x1-5', '5,30', '1-', 'x20-', '-', '0', '9-3', '12', '40-']
FORMATS = ['--format=unified', '--format=unified', '--format=context', '--format=context', '--format=context']
WORDS = rows('--annotate', '--as-numbered-lines=before', '--as-numbered-lines=after', '--strip=1', '--strip=2', '--addprefix=new/',
             '--strip=1 --addoldprefix=a/ --addnewprefix=b/', '--remove-timestamps', '--remove-timestamps --strip=1', '--annotate --hunks=2-',
             '--as-numbered-lines=after --hunks=2-', '--verbose', '--clean', '--clean -i *.c')
OTHERS = rows('--hunk=1', '--excl=*.c', '--files=1 --strip=1 --strip=2', '-p1 -p2 -i main.c', '--hunks=1 --hunks=2', '--list', '--list -n',
              '--filter', '--grep free', '--fo=unified', '--format=context --format=unified', '-n', '--nonsense')
PATTERNS = ['free', 'int', '^a', 'b$', 'return 0', 'x++', '(a', 'a|b', r'free\|Version', r'\(int\|static\)', r'free\[', '[a-c]', '.', '*x', 'nothing',
            'o*p', r'x\+', r'\bfree', '^$', '^.$', 'l)$', r'\.h>']
EXTENDED = ['(int|static)', 'a|b', r'x\+\+', 'free[(]', '^(a|b)$', 'fre+', '[[:digit:]]+', 'Version: .*']
OUTPUTS = rows(*['--output-matching=hunk'] * 4, *['--output-matching=file'] * 4, '--output-matching=hunk --only-match=add',
               '--output-matching=file -p1 -i src/*', '--output-matching=hunk --annotate', '--output-matching=hunk --as-numbered-lines=after',
               '--output-matching=file --as-numbered-lines=before', '--output-matching=hunk --strip=1', '--output-matching=hunk --lines=1-20')
GREPS = rows(*[''] * 12, '-n', '-nv', '-s', '-H', '-N', '--strip=1', '--only-match=rem', '--only-match=additions', '--only-match=mod',
             '--hunks=1', '-v')
SPLITS = rows('', '-a', '-a', '-ad', '-d', '-a -D parts', '-a -E', '-ad -p1', '-av', '-p1', '-D parts')


def pick(random, table):
    """One row of a table, as a list of its own."""
    return list(random.choice(table))


def case_of(random, tool, words, data, **more):
    """A call of a tool over the text p, which is named or comes on standard input."""
    tree = {b'p': Entry('file', data, 0o644)}
    if 'patterns' in ' '.join(words):
        tree[b'patterns'] = Entry('file', random.choice([b'*.c\n', b'src/*\n*.h\n', b'*/main.c\n\nMakefile\n', b'']), 0o644)
    if tool == 'splitdiff' or random.random() < 0.6:
        words, stdin = [*words, 'p'], b''
    else:
        stdin = data
    return Case("", tree, [Run(words, stdin, tool)], facts=more, peer="patchutils")


@kind('list_plain')
def list_plain(random):
    """The names of a text."""
    return case_of(random, 'lsdiff', pick(random, LISTS) + pick(random, SELECT), texts.text(random))


@kind('list_numbers')
def list_numbers(random):
    """Names with numbers of lines, files and hunks."""
    return case_of(random, 'lsdiff', pick(random, NUMBERS) + pick(random, SELECT), texts.text(random))


@kind('list_status')
def list_status(random):
    """Names with the sign of what is done to the file."""
    return case_of(random, 'lsdiff', pick(random, STATUS) + pick(random, SELECT), texts.text(random))


NEAR_EPOCHS = ['1970-01-01 05:30:00 +0530', '1970-01-01 00:07:00', 'Jan 1970 00:00:00', '1969-12-31 16:00:00 -0800', 'rubbish']


@kind('list_stamps')
def list_stamps(random):
    """Header lines in every spelling of stamps and blanks, by hand."""
    stamp = random.choice(texts.STAMPS + texts.EPOCHS + NEAR_EPOCHS)
    name = random.choice(['a/f.c', 'my file.c', 'a/b', 'x y z'])
    old, new = (name + random.choice(['\t', ' ', '  ', '\t ']) + stamp, name + random.choice(['', '\t', '\t' + texts.STAMPS[0], ' ']))
    marks = random.choice([('---', '+++'), ('---', '+++'), ('***', '---')])
    hunk = '@@ -0,0 +1 @@\n+a\n' if marks[0] == '---' else '***************\n*** 0 ****\n--- 1 ----\n+ a\n'
    if random.random() < 0.5:
        old, new = new, old
    data = f'{marks[0]} {old}\n{marks[1]} {new}\n{hunk}'.encode()
    return case_of(random, 'lsdiff', pick(random, rows('', '-s', '-s', '-sE', '-n')), data)


HEADER_NAMES = ['a/f.c', '"a/sm\\303\\266rg.c"', 'a//f.c', './f.c', '/usr/f.c', '/dev/null', 'f.c.orig', 'a/b/c/f.c', 'f', 'F.C', 'a/f.c\r', 'b/f.c',
                '"a/f.c"', 'dev/null']
HEADER_CALLS = rows('lsdiff', 'lsdiff', 'lsdiff --strip=1', 'lsdiff --strip=2', 'lsdiff -s', 'lsdiff -p1 -i f.c', 'filterdiff -p1 -i f.c',
                    'filterdiff -x */f.c', 'grepdiff a')


def headed(random, front):
    """A file patch with two names, behind a line of text."""
    return f'{front}--- {random.choice(HEADER_NAMES)}\n+++ {random.choice(HEADER_NAMES)}\n@@ -1 +1 @@\n-a\n+b\n'


@kind('header_names')
def header_names(random):
    """Header lines with two names of every sort, behind an Index line now and then."""
    front = random.choice(['', '', 'Index: src/f.c\n', 'diff -u a/f.c b/f.c\n'])
    tool, *words = random.choice(HEADER_CALLS)
    return case_of(random, tool, words, ''.join(headed(random, front) for _ in range(random.choice([1, 1, 2]))).encode())


@kind('filter_plain')
def filter_plain(random):
    """A text with no word at all, or with one that nothing is left out by."""
    return case_of(random, 'filterdiff', pick(random, rows('', '', '-i *', '-p1', '-x none', '-v')), texts.text(random))


@kind('filter_bare')
def filter_bare(random):
    """The file patches that names choose, of a text that has nothing outside of them."""
    data = texts.text(random, form='diff', plain=True)
    return case_of(random, 'filterdiff', pick(random, SELECT), data)


@kind('filter_names')
def filter_names(random):
    """The file patches that names choose."""
    words = pick(random, SELECT) + pick(random, rows('', '', '', '-v', '--clean'))
    return case_of(random, 'filterdiff', words, texts.text(random))


@kind('filter_hunks')
def filter_hunks(random):
    """Hunks by their numbers."""
    word = random.choice(['--hunks=', '--hunks=', '-#'])
    words = [word + random.choice(NUMBER_RANGES)] + pick(random, SELECT[:6])
    return case_of(random, 'filterdiff', words, texts.text(random, plain=random.random() < 0.7))


@kind('filter_lines')
def filter_lines(random):
    """Hunks by their lines."""
    words = ['--lines=' + random.choice(LINE_RANGES)] + pick(random, SELECT[:6])
    return case_of(random, 'filterdiff', words, texts.text(random, plain=random.random() < 0.7))


@kind('filter_files')
def filter_files(random):
    """File patches by their numbers."""
    word = random.choice(['--files=', '--files=', '-F'])
    words = [word + random.choice(NUMBER_RANGES)] + pick(random, SELECT[:6])
    return case_of(random, 'filterdiff', words, texts.text(random, plain=random.random() < 0.7))


@kind('filter_format')
def filter_format(random):
    """The text in the other form."""
    words = [random.choice(FORMATS)] + pick(random, rows('', '', '', '-i *.c', '--hunks=1', '--hunks=2-', '-x *.h'))
    return case_of(random, 'filterdiff', words, texts.text(random, plain=random.random() < 0.7))


@kind('filter_words')
def filter_words(random):
    """Words that change what is written of a file patch."""
    return case_of(random, 'filterdiff', pick(random, WORDS), texts.text(random, plain=random.random() < 0.7))


@kind('word_forms')
def word_forms(random):
    """Words cut short, said twice, of another tool, or of none."""
    return case_of(random, 'filterdiff', pick(random, OTHERS), texts.text(random, form='diff', plain=True))


def pattern(random):
    """A pattern of grepdiff with the words that say how it is read."""
    return ['-E', random.choice(EXTENDED)] if random.random() < 0.4 else [random.choice(PATTERNS)]


@kind('grep_plain')
def grep_plain(random):
    """The names of the file patches with a match."""
    return case_of(random, 'grepdiff', pick(random, GREPS) + pick(random, SELECT[:8]) + pattern(random), texts.text(random))


@kind('grep_file')
def grep_file(random):
    """The patterns of a file."""
    case = case_of(random, 'grepdiff', ['-f', 'lines'] + pick(random, GREPS), texts.text(random))
    case.tree[b'lines'] = Entry('file', random.choice([b'free\n', b'x++\nint\n', b'^a\n\n', b'none\n']), 0o644)
    return case


@kind('grep_output')
def grep_output(random):
    """The file patches and hunks with a match."""
    words = pick(random, OUTPUTS) + pattern(random)
    return case_of(random, 'grepdiff', words, texts.text(random, plain=random.random() < 0.7))


@kind('split')
def split(random):
    """A text cut into files."""
    data = texts.text(random, again=random.choice([0.0, 0.5]), plain=random.random() < 0.5)
    return case_of(random, 'splitdiff', pick(random, SPLITS), data)


def edited_by_hand(random, data):
    """The text with a few lines of hunks dropped, added and marked otherwise."""
    lines = data.splitlines(keepends=True)
    for _ in range(random.randrange(1, 4)):
        marked = [place for place, line in enumerate(lines) if line[:1] in b'+- ' and not line.startswith((b'--- ', b'+++ '))]
        if not marked:
            break
        at = random.choice(marked)
        what = random.choice(['drop', 'add', 'mark', 'mark'])
        if what == 'drop':
            del lines[at]
        elif what == 'add':
            lines.insert(at, random.choice([b'+added\n', b' more\n', b'-gone\n']))
        else:
            lines[at] = random.choice([b'+', b'-', b' ']) + lines[at][1:]
    return b''.join(lines)


@kind('recount')
def recount(random):
    """A text that was edited by hand, with its numbers counted again."""
    data = texts.text(random, context='-u')
    return case_of(random, 'recountdiff', [], edited_by_hand(random, data) if random.random() < 0.8 else data, damaged=True)


DAMAGED = rows('lsdiff', 'lsdiff -s', 'filterdiff', 'filterdiff -x none', 'filterdiff --hunks=1', 'grepdiff free', 'recountdiff', 'splitdiff -a',
               'filterdiff --format=context')


@kind('filter_damaged')
def filter_damaged(random):
    """A text that lost or changed a line."""
    tool, *words = random.choice(DAMAGED)
    return case_of(random, tool, list(words), texts.damaged(random, texts.text(random, most=3)), damaged=True)


SEVERAL = rows('lsdiff', 'lsdiff -H', 'lsdiff -h', 'lsdiff -n', 'lsdiff -nvH', 'lsdiff -N', 'filterdiff', 'filterdiff -p1 -i src/*', 'grepdiff free',
               'grepdiff -h free', 'grepdiff --output-matching=file int', 'recountdiff')


@kind('several_files')
def several_files(random):
    """Several texts in one call, one that isn't there now and then."""
    tool, *words = random.choice(SEVERAL)
    case = case_of(random, tool, [], texts.text(random, most=3, plain=True))
    case.tree[b'q'] = Entry('file', texts.text(random, most=3, plain=True), 0o644)
    names = random.choice([['p', 'q'], ['p', 'q'], ['p'], ['q', 'p', 'q'], ['p', 'missing', 'q'], ['missing']])
    case.runs = [Run([*words, *names], b'', tool)]
    return case


SCRIPTS = rows('lsdiff -z p.gz', 'lsdiff -z p.bz2', 'filterdiff -p1 -i src/* -z p.gz', 'lsdiff --strip 1', 'filterdiff -i *.c -p1', 'lsdiff -H p',
               'lsdiff -H', 'lsdiff --strip=1 p', 'lsdiff -s --strip 1 p', 'lsdiff -s p', 'lsdiff', 'lsdiff -p1', 'lsdiff /dev/stdin',
               'grepdiff -z free p.gz', 'lsdiff -z p')


@kind('scripts')
def scripts(random):
    """Calls as the scripts of packagers have them."""
    tool, *words = random.choice(SCRIPTS)
    data = texts.text(random)
    case = case_of(random, tool, list(words), data)
    case.tree.update({b'p.gz': Entry('file', gzip.compress(data, mtime=0), 0o644), b'p.bz2': Entry('file', bz2.compress(data), 0o644)})
    named = words[-1:] in (['p'], ['p.gz'], ['p.bz2'])
    case.runs = [Run(list(words), b'' if named else data, tool)]
    return case
