"""Why the program leaves something else than GNU patch: each difference is given to a key, by small functions."""
import importlib
import os

# in the order in which they are asked
MODULES = ("git_reasons", "text_reasons", "word_reasons", "tree_reasons", "plain_reasons")

# keys under which ours may end with 0 over another tree than the one that the patch was made for
SILENT = ("stamps-of-1970", "newline-names")


def pairs_of(name):
    """The reasons of a module, as pairs; none where it isn't there."""
    if not os.path.exists(os.path.join(os.path.dirname(__file__), name + ".py")):
        return []
    found = importlib.import_module(name).REASONS
    return [each if isinstance(each, tuple) else (each.key, each) for each in found]


def all_reasons():
    """The reasons of all modules."""
    return [pair for name in MODULES for pair in pairs_of(name)]


def with_ways(explained, left):
    """What a key explains, with the directories above it that differ in the same way."""
    whats = {(each.what, each.name[:at]) for each in explained if isinstance(each.name, bytes) for at in range(len(each.name))}
    return explained + [each for each in left if each not in explained and (each.what, each.name) in whats and (each.gnu or each.ours)[0] == "dir"]


def key_of(case, gnu, ours, differences, reasons=None):
    """The keys of a case, each with what it explains; a difference goes to the first key that explains it."""
    left, found = list(differences), []
    for key, explain in reasons if reasons is not None else all_reasons():
        explained = [each for each in explain(case, gnu, ours, left) if each in left]
        if explained:
            explained = with_ways(explained, left)
            found.append((key, explained))
            left = [each for each in left if each not in explained]
    return found
