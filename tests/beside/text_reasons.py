"""Why ours leaves something else than GNU patch does of texts that came through mails, other systems or hands."""
import re

from case import Reasons
from git_reasons import of_names, says, statuses
from patch_reading import all_names, parts_of, text_of
from seen import refused as refused_whole, untouched

REASONS = Reasons()
HEADER = re.compile(rb"(?m)^[ \t]*(?:\*\*\*|---|\+\+\+|diff|Index:|Prereq:) \S")
INDENTED = re.compile(rb"(?m)^([ \t]+)(?:\*\*\*|---|\+\+\+|diff|Index:|Prereq:) \S")
DAMAGED = ("mangled_context", "cut_text", "numbers", "headerless", "lost_blanks", "indented", "nul_bytes")
COMMAND = re.compile(rb"(?m)^\d+(?:,\d+)?[acd]\d*$")


def refused(case, gnu, ours):
    """Returns whether ours refused the text, which GNU patch took to its end."""
    return refused_whole(case, ours) and gnu.status != [2]


def is_context(case):
    """Returns whether the text is of the context form."""
    return re.search(rb"(?m)^[ \t]*\*\*\* \d+(,\d+)? \*\*\*\*", text_of(case)) is not None


@REASONS.of("indented")
def indented(case, _gnu, ours, differences):
    """An indented patch, a line of which has less in front, is none here."""
    text = text_of(case)
    found, first = INDENTED.search(text), HEADER.search(text)
    lacks = found and any(line.strip(b"\r\n") and not line.startswith(found[1]) for line in text[first.start():].splitlines(True))
    return differences if lacks and untouched(case, ours) and ours.status != [0] else []


@REASONS.of("prereq")
def prereq(case, gnu, ours, differences):
    """A version that the file lacks: GNU patch asks and ends there, ours leaves out that file patch."""
    lacks = b"Prereq:" in text_of(case) and says(gnu, b"aborted", b"version -- aborting") and gnu.status == [2] and ours.status == [1]
    return differences if lacks else []


@REASONS.of("reject-headers")
def numbers_below_one(_case, _gnu, _ours, differences):
    """A reject of a hunk that was moved to the file's beginning or in front of it: there its lines begin at 0 or below."""
    return [each for each in differences if each.what == "bytes" and each.name.endswith(b".rej") and re.search(rb"\n@@ -(?:-|0,[1-9])", each.gnu)]


@REASONS.of("reject-headers")
def ranges_with_returns(_case, _gnu, _ours, differences):
    """A context reject of a patch whose range lines end in carriage returns: there these lose their stars, or have a dash more."""
    cut = re.compile(rb"\n\*\*\* \d+(?:,\d+)?\n(?s:.)*\n--- \d+(?:,\d+)? -----\n")
    return [each for each in differences if each.what == "bytes" and each.name.endswith(b".rej") and cut.search(each.gnu)]


@REASONS.of("malformed-refuses-all")
def malformed(case, gnu, ours, differences):
    """A text that both refuse: there, behind what stands in front of the malformed line, here as a whole."""
    both = gnu.status == [2] and refused_whole(case, ours) and says(ours, b"malformed patch")
    return differences if both and case.kind in DAMAGED else []


@REASONS.of("mangled-context")
def mangled_context(case, gnu, ours, differences):
    """A context hunk whose halves differ by a lost blank, or that has lost lines of a half, its end or its row of stars, is refused here."""
    mangled = case.kind in ("mangled_context", "cut_text", "indented") and is_context(case)
    return differences if mangled and refused(case, gnu, ours) else []


@REASONS.of("mangled-context")
def taken_for_a_half(case, gnu, ours, differences):
    """A line behind a context hunk whose new half tells nothing: there it is read as that half."""
    behind = is_context(case) and case.facts.get("behind", b"").startswith(b"-") and gnu.status == [1] and ours.status == [0]
    return differences if behind else []


@REASONS.of("cut-hunks")
def cut_hunks(case, gnu, ours, differences):
    """A text that ends within its last hunk is refused, where GNU patch takes up to three lines of context as lost."""
    cut = says(ours, b"ends inside a hunk", b"counts and lines differ", b"without a mark") and not is_context(case)
    return differences if case.kind == "cut_text" and cut and refused(case, gnu, ours) else []


@REASONS.of("line-feed-cut")
def line_feed_cut(case, gnu, ours, differences):
    """The last line of a text without its line feed: there it is dropped, here completed."""
    cut = says(gnu, b"unexpectedly ends in middle of line")
    if cut and refused(case, gnu, ours):
        return differences
    return of_names(differences, all_names(parts_of(case)[-1:])) if cut else []


@REASONS.of("hunk-numbers")
def hunk_numbers(case, gnu, ours, differences):
    """Hunks out of order, and lines that begin at 0, refuse the text."""
    told = says(ours, b"hunks out of order") or case.facts.get("way") == "zero start" and says(ours, b"a bad range")
    return differences if told and refused(case, gnu, ours) else []


@REASONS.of("damaged-beginnings")
def damaged_beginnings(case, gnu, ours, differences):
    """A damaged line that should begin a hunk is text here; there it is refused."""
    damaged = re.search(rb"(?m)^@@ -[^0-9]", text_of(case)) and gnu.status == [2]
    return differences if damaged and ours.status != [2] else []


@REASONS.of("blanks-in-numbers")
def blanks_in_numbers(case, gnu, ours, differences):
    """Blanks around the numbers of a unified range line."""
    return differences if case.facts.get("way") == "blanks" and gnu.status != ours.status else []


@REASONS.of("nul-bytes")
def nul_bytes(case, gnu, ours, differences):
    """A byte 0 in a name, or at the end of a range line."""
    if not re.search(rb"(?m)^(?:---|\+\+\+|\*\*\*|@@).*\0", text_of(case)):
        return []
    names = all_names(parts_of(case))
    return differences if refused(case, gnu, ours) else of_names(differences, names | {name.split(b"\0")[0] for name in names})


@REASONS.of("headerless-hunks")
def headerless(case, gnu, ours, differences):
    """Hunks without header lines: file patches without a name here, text there, or garbage where nothing else is."""
    bare = case.kind == "headerless" and says(ours, b"can't find file to patch")
    return statuses(differences) if bare and ours.status == [1] and gnu.status in ([0], [2]) else []


@REASONS.of("headerless-hunks")
def commands_in_text(case, gnu, ours, differences):
    """Commands of a normal diff or an ed script in the text: file patches without a name here."""
    commands = case.kind == "mail_text" and COMMAND.search(text_of(case))
    return statuses(differences) if commands and (gnu.status, ours.status) == ([0], [1]) else []


@REASONS.of("headerless-hunks")
def range_in_text(case, gnu, ours, differences):
    """A range line in the text in front, without a hunk behind it, is malformed here or a file patch without a name, text there."""
    if not any(re.match(rb"(> .*\n)*@@ -\d", it) for it in case.facts.get("front", [])):
        return []
    return differences if refused(case, gnu, ours) else statuses(differences) if (gnu.status, ours.status) == ([0], [1]) else []
