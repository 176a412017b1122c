"""Which key a word of the filters has that ours can't take; a word that no row names has none."""
import re

LONG = [
    (r'--as-numbered-lines', 'as-numbered-lines'),
    (r'--(strip|addprefix|addoldprefix|addnewprefix|remove-timestamps|clean)\b', 'output-names'),
    (r'--(annotate|number-files|hunks|lines|files|format|file|decompress)\b', 'filter-words'),
    (r'--(hunk|excl|fo)=', 'filter-words'),
]
LETTERS = {
    'lsdiff': {'z': 'filter-words'},
    'grepdiff': dict.fromkeys('Nfz', 'filter-words'),
    'filterdiff': {'v': 'text-between', 'z': 'filter-words', 'n': 'filter-words'},
    'splitdiff': dict.fromkeys('pv', 'split-names'),
    'recountdiff': {},
}
VERBOSE = {'filterdiff': 'text-between'}


def key_of_letters(tool, word):
    """The key of the first letter of a word such as -nvH that ours has not."""
    letters = LETTERS[tool]
    return next((letters[letter] for letter in word[1:] if letter in letters), None)


def key_of_word(tool, word):
    """The key of a word, or None."""
    if word == '--verbose':
        return VERBOSE.get(tool)
    if word.startswith('--'):
        return next((key for pattern, key in LONG if re.match(pattern, word)), None)
    if word.startswith('-') and len(word) > 1:
        return key_of_letters(tool, word)
    return None


def option_of(word):
    """The option that a word gives, without its value."""
    option = word.split('=')[0] if word.startswith('--') else word[:2]
    return '-p' if option == '--strip-match' else option


def key_of_refusal(run, told):
    """The key of a call whose words ours refuses; told is what it says of them."""
    named = re.findall(r'"([^"]*)"', told.split('\n')[1])
    if "can't take" in told and len(named) == 2:
        same = option_of(named[0]) == option_of(named[1])
        return 'filter-words' if same else next(filter(None, (key_of_word(run.tool, word) for word in named)), None)
    words = [word for word in named if word and not (len(named) == 2 and word == named[0])]
    return next((key for key in (key_of_word(run.tool, word) for word in words) if key), None)
