"""What a reason may look at: the words, the patch as text, what GNU patch said of each file, and rejects without their header lines."""
import os
import re
from dataclasses import dataclass


def words_of(case):
    """All words of a case as one line."""
    return " ".join(os.fsdecode(word) for run in case.runs for word in run.words)


def has(case, *words):
    """Whether one of these words, or a bundle of letters with it, is among those of a case."""
    for word in (os.fsdecode(each) for run in case.runs for each in run.words):
        for asked in words:
            if word == asked or (asked.startswith("--") and word.startswith(asked + "=")):
                return True
            if len(asked) == 2 and re.fullmatch(r"-[A-Za-z]+\d*", word) and not re.match(r"-[iorzBYVDdF]", word) and asked[1] in word:
                return True
    return False


def strip_count(case):
    """The N of -p, or None."""
    found = re.findall(r"(?:^| )(?:-[A-Za-z]*p ?|--strip[= ])(\d+)", words_of(case))
    return int(found[-1]) if found else None


def texts_of(case):
    """The texts of patches that the calls read, one behind another."""
    return b"".join(run.stdin for run in case.runs) + case.beside.get(b"change.diff", b"")


@dataclass(frozen=True)
class FilePatch:
    """One header with the form and what its first range says: whether a side is empty or gone."""
    form: str
    old: bytes
    old_stamp: bytes
    new: bytes
    new_stamp: bytes
    makes: bool
    removes: bool
    body: bytes


# one or both header lines in front of a hunk; the lines with a context hunk's ranges look alike
HEADER = re.compile(
    rb"^(?:((?:(?:---|\+\+\+) [^\n]*\n){1,2})(?=@@ -)"
    rb"|((?:(?:\*\*\*|---) (?!\d+(?:,\d+)? (?:-|\*){4}\n)[^\n]*\n){1,2})(?=\*{15}))", re.M)


def file_patches(text):
    """The file patches with a header of a text, in their order."""
    found = list(HEADER.finditer(text))
    ends = [each.start() for each in found[1:]] + [len(text)]
    return [file_patch(each, text[each.end():end]) for each, end in zip(found, ends)]


def side(lines, mark):
    """The name and the stamp of the header line with a mark; the stamp begins at a tab, or at a blank where there is none."""
    line = next((each[4:] for each in lines if each.startswith(mark + b" ")), b"")
    name, gap, stamp = line.partition(b"\t" if b"\t" in line else b" ")
    return name, gap + stamp


def file_patch(header, body):
    """One file patch from its header and what follows."""
    lines, unified = header.group().split(b"\n"), header.group(1) is not None
    old, new = (side(lines, mark) for mark in ((b"---", b"+++") if unified else (b"***", b"---")))
    makes = re.match(rb"@@ -0[, ]" if unified else rb"\*{15}[^\n]*\n\*\*\* 0[ ,]", body)
    removes = re.match(rb"@@ -[\d,]+ \+0[, ]", body) if unified else re.search(rb"^--- 0 ----", body, re.M)
    return FilePatch("unified" if unified else "context", *old, *new, bool(makes), bool(removes), body)


def stripped(name, count):
    """A name without its first COUNT components; its last one where no count was given."""
    parts = [part for part in name.split(b"/") if part] if count is None else name.split(b"/")
    if name == b"/dev/null":
        return b""
    return parts[-1] if count is None and parts else b"/".join(parts[count or 0:])


def names_of(case, piece):
    """The names that a file patch can mean."""
    operands = [os.fsencode(word) for run in case.runs for word in run.words if os.fsencode(word) in case.tree]
    count = strip_count(case)
    return {name for name in (stripped(piece.old, count), stripped(piece.new, count), *operands) if name}


def is_epoch(stamp):
    """Whether a stamp is the beginning of 1970 in some zone and form."""
    return bool(re.search(rb"1970-01-01|1969-12-31|Jan +1 [\d:]+ 1970|Dec 31 [\d:]+ 1969", stamp))


def is_plain_epoch(stamp):
    """Whether a stamp is 1970 as `diff -u` or `diff -c` writes it in some zone."""
    return bool(re.fullmatch(rb"\t(?:(?:1970-01-01|1969-12-31) [\d:.]+ [+-]\d{4}|(?:Wed Dec 31|Thu Jan  1|Fri Jan  2) [\d:]+ (?:1969|1970))", stamp))


def told(left):
    """What was printed of each file, by its name: the lines behind `patching file NAME`, whole."""
    found = {}
    for out in left.out + left.err:
        for block in re.split(rb"^(?=(?:patching|checking) (?:symbolic link|file) )", out, flags=re.M):
            name = re.match(rb"(?:patching|checking) (?:symbolic link|file) '?([^\n']*?)'?(?: \(.*\))?\n", block)
            if name:
                found[name.group(1)] = found.get(name.group(1), b"") + block
    return found


def reject_names(left):
    """The names of the files to which rejects were saved."""
    return {name for out in left.out for name in re.findall(rb"saving rejects to file '?([^\n']*)", out)}


def original(case, name):
    """The bytes that a file had before, or None."""
    return case.tree[name].data if name in case.tree and case.tree[name].kind == "file" else None


def bytes_in(left, name):
    """The bytes of a file as it was left, or None."""
    return left.shape[name][2] if name in left.shape and left.shape[name][0] == "file" else None


def is_kept(entry, found):
    """Whether what was found at a name is the tree's entry with its bytes and bits."""
    bits = entry.mode if entry.mode is not None else 0o755 if entry.kind == "dir" else 0o644
    return found is not None and found[2] == entry.data and (entry.kind == "link" or found[1] == bits)


def untouched(case, left):
    """Whether nothing was changed at all."""
    kept = all(is_kept(entry, left.shape.get(name)) for name, entry in case.tree.items())
    known = {*case.tree, *above(case.tree), *(b"../" + name for name in case.beside)}
    return kept and all(name in known for name in left.shape)


def refused(case, ours):
    """Whether ours refused the whole run: status 2 and nothing changed."""
    return set(ours.status) == {2} and untouched(case, ours)


def above(names):
    """The directories above some names."""
    return {name[:at] for name in names for at in range(len(name)) if name[at:at + 1] == b"/"}


def of(differences, *whats, names=None):
    """Those of some differences, of these sorts and names."""
    return [each for each in differences if each.what in whats and (names is None or each.name in names)]


def backup_names(case, file):
    """The names that the backup of a file can have."""
    words, (head, _, last) = words_of(case), file.rpartition(b"/")
    suffixes = [b".orig", *(b".~%d~" % number for number in range(1, 10)), *(os.fsencode(value) for value in case.env.values())]
    suffixes += map(os.fsencode, re.findall(r"(?:-z ?|--suffix[= ])(\S+)", words))
    plain = [file + suffix for suffix in suffixes]
    for prefix in map(os.fsencode, re.findall(r"(?:-B ?|--prefix[= ])(\S+)", words)):
        plain += [prefix + each for each in (file, *plain)]
    for prefix in map(os.fsencode, re.findall(r"(?:-Y ?|--basename-prefix[= ])(\S+)", words)):
        plain.append((head + b"/" if head else b"") + prefix + last)
    return {os.path.normpath(each) for each in plain}


def backed_up(case, name):
    """The file of the tree or the patch whose backup a name can be, or None."""
    files = {*case.tree}.union(*(names_of(case, piece) for piece in file_patches(texts_of(case))))
    return next((file for file in sorted(files, key=lambda file: (-len(file), file)) if name in backup_names(case, file)), None)


def names_after(case, word):
    """The names that an option as -o gives."""
    return {os.fsencode(name) for name in re.findall(rf"-{word} ?([^\s=]+)", words_of(case))}


def about(case, differences, names):
    """The differences of some files, their rejects, their backups and the directories above them."""
    known = set().union(*({name, name + b".rej", *backup_names(case, name)} for name in names))
    known |= above(known)
    return [each for each in differences if each.name in known]


def is_consistent(left):
    """Whether a status of 0 or 1 agrees with what was printed."""
    failed = any(re.search(rb"FAILED|ignored|Not deleting|garbage", text) for text in left.out + left.err)
    return max(left.status) in (int(failed), 2)


def with_status(found, gnu, ours, differences, *changes):
    """What was found, with a status that changed in one of these ways, if something was found at all."""
    if not found or not is_consistent(ours):
        return found
    return found + [each for each in of(differences, "status") if (each.gnu, each.ours) in changes]


def stop(gnu, ours):
    """Which of the two ended with status 2 where the other went on, or None."""
    if (gnu.status[-1] == 2) == (ours.status[-1] == 2):
        return None
    return "ours" if ours.status[-1] == 2 else "gnu"


def unreached(case, gnu, ours, differences, stopped):
    """What the one that stopped ('gnu' or 'ours') left as it was of the patch's files, and its status if there is such a thing."""
    names = set().union(*(names_of(case, piece) for piece in file_patches(texts_of(case))), names_after(case, "o"), names_after(case, "r"))
    known = [each for each in about(case, differences, names) if each.what != "status"]
    found = [each for each in of(known, "missing" if stopped == "ours" else "extra") if each.name not in case.tree]
    found += [each for each in of(known, "bytes") if getattr(each, stopped) == original(case, each.name)]
    return found + of(differences, "status") if found and stop(gnu, ours) == stopped else found


HEAD_OF_REJECT = re.compile(rb"^(?:Index: [^\n]*\n)?(?:--- [^\n]*\n\+\+\+ [^\n]*\n(?=@@ )|\*\*\* [^\n]*\n--- [^\n]*\n(?=\*{15}))", re.M)


def hunks_of(reject):
    """A reject without header lines and what stands behind the second @@ or the stars: what its hunks say."""
    return re.sub(rb"^(@@ [^@\n]* @@|\*{15})[^\n]*", rb"\1", HEAD_OF_REJECT.sub(b"", reject), flags=re.M)
