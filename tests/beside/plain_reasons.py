"""Why files, backups and rejects differ where both programs carried out the patch."""
import os
import re

from case import Reasons
from seen import (about, above, backed_up, backup_names, bytes_in, file_patches, has, hunks_of, is_epoch, is_plain_epoch, names_of, of, original,
                  reject_names, texts_of, told, with_status)

REASONS = Reasons()
TURNED = rb"(?:Assuming|Ignoring) -R\."


def sides(case, piece):
    """Whether a file patch, as applied, makes its file, removes it, and the stamp of the side that isn't there."""
    if has(case, "-R", "--reverse"):
        return piece.removes, piece.makes, piece.new_stamp, piece.new
    return piece.makes, piece.removes, piece.old_stamp, piece.old


def rejects(case, gnu):
    """The names under which GNU patch saved rejects."""
    return reject_names(gnu) | {name for name in gnu.shape if name.endswith(b".rej")}


@REASONS.of("reject-headers")
def reject_headers(case, gnu, ours, differences):
    """The same rejected hunks behind other header lines."""
    return [each for each in of(differences, "bytes", names=rejects(case, gnu)) if hunks_of(each.gnu) == hunks_of(each.ours)]


def ordered(hunks):
    """Hunks with the removed lines of each change in front of the added ones."""
    return re.sub(rb"^(?:[-+].*\n)+", lambda run: b"".join(sorted(run.group().splitlines(True), key=lambda line: line[:1] == b"+")), hunks, flags=re.M)


@REASONS.of("reject-order")
def reject_order(case, gnu, ours, differences):
    """Rejects of a reversed patch, in which added lines stand in front of removed ones."""
    return [each for each in of(differences, "bytes", names=rejects(case, gnu)) if ordered(hunks_of(each.gnu)) == ordered(hunks_of(each.ours))]


@REASONS.of("reject-line-feed")
def reject_line_feed(case, gnu, ours, differences):
    """Rejects with a line without its line feed, which GNU patch joins with the next."""
    mark = b"\n\\ No newline at end of file\n"
    marked = [each for each in of(differences, "bytes", names=rejects(case, gnu)) if mark in each.ours]
    return [each for each in marked if ordered(hunks_of(each.ours)).replace(mark, b"") == ordered(hunks_of(each.gnu)).replace(mark, b"")]


@REASONS.of("reject-modes")
def reject_modes(case, gnu, ours, differences):
    """Rejects of a private file that only its owner can read."""
    return [each for each in of(differences, "mode", names=rejects(case, gnu)) if each.ours & ~each.gnu == 0]


@REASONS.of("emptied-directories")
def emptied_directories(case, gnu, ours, differences):
    """Directories of files that the words name, which are empty now, and still there."""
    named = above({os.fsencode(word) for run in case.runs for word in run.words} & set(case.tree))
    emptied = {name for name, found in ours.shape.items() if found[0] == "dir" or (found[2] == b"" and name not in gnu.shape)}
    full = above({name for name in ours.shape if name not in emptied})
    return [each for each in of(differences, "extra", names=named) if each.ours[0] == "dir" and each.name not in full]


@REASONS.of("backup-unplaced")
def backup_unplaced(case, gnu, ours, differences):
    """The backup of a file of which a file patch placed no hunk."""
    found = []
    for each in of(differences, "missing", "bytes"):
        file = backed_up(case, each.name)
        block = told(gnu).get(file, b"")
        kept = original(case, file) == bytes_in(gnu, file) == bytes_in(ours, file)
        unplaced = (kept or re.search(rb"\n(\d+) out of \1 hunks? FAILED", block)) and not re.search(TURNED, block)
        same = bytes_in(gnu, each.name) == original(case, file) and bytes_in(ours, each.name) == original(case, each.name)
        if file is not None and same and unplaced:
            found.append(each)
    return found


@REASONS.of("peer-aborts")
def backup_of_patched_bytes(case, gnu, ours, differences):
    """The backup that GNU patch overwrites with patched bytes, where a later file patch of the same file fails."""
    names = [name for piece in file_patches(texts_of(case)) for name in names_of(case, piece)]
    found = []
    for each in of(differences, "bytes", "missing"):
        file = backed_up(case, each.name)
        new = each.gnu if each.what == "bytes" else each.gnu[2]
        if file is not None and names.count(file) > 1 and new != original(case, file) and new == bytes_in(gnu, file):
            found.append(each)
    return found


@REASONS.of("skipped-rejects")
def skipped_rejects(case, gnu, ours, differences):
    """The reject of a file patch that both skipped."""
    ignored = {name for out in gnu.out for name in re.findall(rb"hunks? ignored -- saving rejects to file '?([^\n']*)", out)}
    rest = [each for each in of(differences, "bytes", names=ignored) if hunks_of(each.ours) in hunks_of(each.gnu)]
    return rest + [each for each in of(differences, "missing", names=ignored) if each.gnu[0] == "file"]


@REASONS.of("turned-backup")
def turned_backup(case, gnu, ours, differences):
    """The backup of a file whose patch was turned round by -t."""
    turned = {name for name, block in told(gnu).items() if re.search(TURNED, block)}
    turned |= {name for out in gnu.out for name in re.findall(rb"the file '?([^\n]*?)'?,\nwhich [^\n]*" + TURNED, out)}
    missing = [(each, backed_up(case, each.name)) for each in of(differences, "missing")]
    return [each for each, file in missing if file in turned and each.gnu[2] == original(case, file)]


def taken_as_reversed(gnu):
    """The files whose patch GNU patch took as applied before, also under -s, where it doesn't name them in front."""
    found = {name for name, block in told(gnu).items() if re.search(rb"[Rr]eversed .*detected", block)}
    for out in gnu.out:
        found |= set(re.findall(rb"[Rr]eversed [^\n]*detected!(?:(?!\npatching).)*? ignored -- saving rejects to file '?([^\n']*?)\.rej", out, re.S))
    return found


def hunk_count(text):
    """How many hunks a text has."""
    return len(re.findall(rb"^(?:@@ -|\*{15})", text, re.M))


def deletes_alone(case, piece):
    """Whether the first hunk, as applied, deletes lines without context, so that its reverse has no old lines."""
    first = re.match(rb"@@ -\d+(,\d+)? \+\d+(,\d+)? @@", piece.body)
    if not first:
        return sides(case, piece)[1]
    return first.group(1 if has(case, "-R", "--reverse") else 2) == b",0"


@REASONS.of("reversal-empty")
def reversal_empty(case, gnu, ours, differences):
    """A deletion without context that fits nowhere, which GNU patch takes as applied before: it skips, ours fails that hunk alone."""
    found = []
    for piece in file_patches(texts_of(case)):
        names = names_of(case, piece)
        if names & taken_as_reversed(gnu) and deletes_alone(case, piece) and reject_names(ours):
            failed = max(hunk_count(bytes_in(ours, name) or b"") for name in sorted(reject_names(ours)))
            turned = any(re.search(TURNED, told(gnu).get(name, b"")) and bytes_in(ours, name) == original(case, name) for name in names)
            all_of_it = turned or failed < hunk_count(piece.body)
            kept = {backup for name in names for backup in backup_names(case, name)}
            part = of(differences, "bytes", names=rejects(case, gnu)) + of(differences, "extra", names=kept)
            found += about(case, differences, names) if all_of_it else part
    return with_status(found, gnu, ours, differences, (0, 1))


def insertions(case, body):
    """The stated place and the lines of each hunk that, as applied, has no old lines."""
    turned = has(case, "-R", "--reverse")
    unified = rb"^@@ -\d+(?:,\d+)? \+(\d+),0 .*\n((?:-.*\n)+)" if turned else rb"^@@ -(\d+),0 .*\n((?:\+.*\n)+)"
    context = rb"^\*{15}.*\n\*\*\* .*\n((?:- .*\n)+)--- (\d+) ----" if turned else rb"^\*{15}.*\n\*\*\* (\d+) \*{4}.*\n--- .*\n((?:\+ .*\n)+)"
    found = [(place, re.sub(rb"^[-+]", b"", lines, flags=re.M)) for place, lines in re.findall(unified, body, re.M)]
    pairs = [pair[::-1] if turned else pair for pair in re.findall(context, body, re.M)]
    return found + [(place, re.sub(rb"^[-+] ", b"", lines, flags=re.M)) for place, lines in pairs]


@REASONS.of("beyond-end")
def beyond_end(case, gnu, ours, differences):
    """An insertion without context behind the file's end, which GNU patch appends."""
    found = []
    for piece in file_patches(texts_of(case)):
        for name in names_of(case, piece) & {*case.tree}:
            end = (original(case, name) or b"").count(b"\n")
            added = [lines for place, lines in insertions(case, piece.body) if int(place) > end]
            if any((bytes_in(gnu, name) or b"").endswith(lines) and not (bytes_in(ours, name) or b"").endswith(lines) for lines in added):
                found += about(case, differences, {name})
    return with_status(found, gnu, ours, differences, (0, 1))


@REASONS.of("peer-aborts")
def half_in_front_of_header(case, gnu, ours, differences):
    """A context hunk without its new half in front of a unified header, which GNU patch takes into the hunk, so that it fits with fuzz or fails."""
    pieces, found = file_patches(texts_of(case)), []
    for piece, behind in zip(pieces, pieces[1:]):
        if behind.form == "unified" and piece.form == "context" and re.search(rb"^--- \d+(?:,\d+)? ----\n\Z", piece.body, re.M):
            missed = {name for name in names_of(case, piece) if re.search(rb"FAILED|fuzz", told(gnu).get(name, b""))}
            found += about(case, of(differences, "bytes", "missing"), missed)
    return found


@REASONS.of("new-without-epoch")
def new_without_epoch(case, gnu, ours, differences):
    """A file that GNU patch makes since its range says so, though no stamp does; or that ours makes by its stamp, though the range denies it."""
    found = []
    for piece in file_patches(texts_of(case)):
        makes, _, stamp, name = sides(case, piece)
        if not makes and is_epoch(piece.old_stamp):
            found += [each for each in about(case, of(differences, "extra"), names_of(case, piece)) if original(case, each.name) is None]
        if makes and not is_epoch(stamp) and name != b"/dev/null":
            found += about(case, of(differences, "missing"), {name for name in names_of(case, piece) if name not in case.tree})
    return with_status(found, gnu, ours, differences, (0, 1))


@REASONS.of("stamps-of-1970")
def stamps_of_1970(case, gnu, ours, differences):
    """A file that is made or removed by a stamp of 1970 that isn't the one `diff -u` writes in UTC."""
    found = []
    for piece in file_patches(texts_of(case)):
        makes, removes, stamp, _ = sides(case, piece)
        other = piece.old_stamp if stamp == piece.new_stamp else piece.new_stamp
        if makes and is_epoch(stamp) and not is_plain_epoch(stamp):
            found += about(case, of(differences, "missing"), names_of(case, piece))
        if removes and is_epoch(other) and not is_plain_epoch(other):
            found += [each for each in of(differences, "extra", names=names_of(case, piece)) if each.ours[2] == b""]
    return with_status(found, gnu, ours, differences, (0, 1))


@REASONS.of("forced-forward")
def forced_forward(case, gnu, ours, differences):
    """With -f and -N a file that is made and is there: GNU patch skips it, ours tries it, so that it fails."""
    found = []
    for piece in file_patches(texts_of(case)):
        makes, _, stamp, name = sides(case, piece)
        if makes and (is_epoch(stamp) or name == b"/dev/null") and has(case, "-f", "--force") and has(case, "-N", "--forward"):
            found += about(case, differences, {name for name in names_of(case, piece) if original(case, name)})
    return with_status(found, gnu, ours, differences, (1, 0))


@REASONS.of("gone-already")
def gone_already(case, gnu, ours, differences):
    """With -f a file to be removed or emptied that is gone or empty."""
    found = []
    for piece in file_patches(texts_of(case)):
        if sides(case, piece)[1] and has(case, "-f", "--force"):
            found += about(case, differences, {name for name in names_of(case, piece) if not original(case, name)})
    return with_status(found, gnu, ours, differences, (2, 1))
