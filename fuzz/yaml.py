"""YAML texts, read by fisca_yaml (fisca_bench, FISCA_BENCH) and by libyaml's composer beside it.

Texts of pieces by lot, and as many files of the rule sets of the repository with changes at random places. Where both
read a text, the two trees have to be the same, with the lines of keys and scalars. The two are known to differ in some
forms (KNOWN); their number is told. It needs cc, and libyaml with its header (Debian: libyaml-dev).
"""
import re

import common

COUNT = 20000
PIECES = [
    "a", "b: ", "c:", "- ", "\n", "\n  ", "\n", "\n    ", " ", "\t", "[", "]", "{", "}", ", ", ",", ":", '"', "'", "\\",
    "#", " # c", "|", ">-", "é", "\r\n", "---", "...", "%", "<<", "\\x41", "1", "-", "?", "null", "~", "'d'", '"e"',
    "k: v\n", "- i\n", "  k: v\n", "[a, b]", "{f: g}", "\"h\": ",
]

# Where both read a text, and are known to differ: a pattern of the text, and why.
KNOWN = [
    (r"\r(?!\n)|[\x85\u2028\u2029]",
     "libyaml ends a line also at a carriage return alone, and at three characters beyond ASCII"),
    (r"\ufeff", "libyaml drops a byte order mark"),
    (r"(?m)^--- *[^ \t#\r\n]|^---[ \t]", "libyaml begins a document at three dashes with content behind them"),
    (r"(?m)^\.\.\.", "libyaml ends a document at three points with content behind them"),
    (r"[\[{,]\s*[?]", "libyaml reads a question mark in brackets as the mark of a key"),
    (r"[\[{,\]}]#|['\"]#", "libyaml begins a comment right behind a bracket, a comma or a quote"),
    (r"(?m)^\s*[|>]|[\[{,]\s*[|>]", "libyaml begins a block text where no key and no dash comes before it"),
]


def files():
    """The texts of all YAML files of the rule sets, in order."""
    paths = [path for folder in common.rule_folders() for path in sorted(folder.rglob("*"))]
    return [path.read_text(encoding="utf-8") for path in paths if path.suffix in (".yaml", ".yml")]


def changed(lot, text):
    """A text with one to three changes."""
    for _ in range(lot.randint(1, 3)):
        at, end = sorted((lot.randint(0, len(text)), lot.randint(0, len(text))))
        kind = lot.randint(0, 4)
        if kind == 0:
            text = text[:at] + lot.choice(PIECES) + text[at:]
        elif kind == 1:
            text = text[:at] + text[at + 1:]
        elif kind == 2:
            text = text[:at] + lot.choice(PIECES) + text[at + 1:]
        elif kind == 3:
            lines = text.split("\n")
            lines.insert(lot.randint(0, len(lines)), lot.choice(lines))
            text = "\n".join(lines)
        else:
            text = text[:at] + text[min(end, at + 20):]
    return text


def drawn_texts(fuzz):
    """Texts of pieces, and as many changed files."""
    originals = files()
    texts = [common.row_of(fuzz.lot, PIECES, fuzz.lot.randint(1, 16)) for _ in range(fuzz.count)]
    return texts + [changed(fuzz.lot, fuzz.lot.choice(originals)) for _ in range(fuzz.count)]


def run(fuzz):
    """Reads all texts."""
    fuzz.program("fisca_bench")
    texts = drawn_texts(fuzz)
    ours = fuzz.lines("fisca_bench", ["trees"], texts)
    theirs = fuzz.lines(fuzz.peer("trees.c"), [], texts)
    both = known = 0
    for text, mine, other in zip(texts, ours, theirs):
        if mine.startswith("!") or other.startswith("!"):
            fuzz.check(True, text)
            continue
        both += 1
        is_known = mine != other and any(re.search(pattern, text) for pattern, _ in KNOWN)
        known += is_known
        fuzz.check(mine == other or is_known, f"{text!r}\n  fisca   {mine}\n  libyaml {other}")
    read = [sum(not line.startswith("!") for line in lines) for lines in (ours, theirs)]
    told = f"read by fisca {read[0]}, by libyaml {read[1]}, by both {both}"
    fuzz.note(f"{len(texts)} texts, {told}; {known} known differences")
