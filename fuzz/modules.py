"""Modules, read by fisca_parser (fisca_bench, FISCA_BENCH) and by a reader of the same modules in plain Rust beside it.

Each prefix of two modules of tests/rules/household; these with one character left out, doubled or changed, everywhere;
rows of tokens by lot; and 1 MiB of each bracket. Each has to be read, or refused by a kind of modules at one of its
lines; both have to read the same texts, into trees of one checksum; and 1 MiB of brackets is refused in linear time.
"""
import common

COUNT = 20000
AT_ONCE = 2000
FILES = ["tests/rules/household/entities.py", "tests/rules/household/variables/a.py"]
SIGNS = "()[]{}:,.=+-*/~|&<>'\"#\\ \n\taZ0_é%"
PIECES = [
    "class a(Variable):\n", "class b(Enum):\n", "    ", "        ", "\n", "\n    ", "\n        ",
    "    def formula(a, b):\n", "return ", "x = ", "entities = [A, B]\n", "A = build_entity(key='a')\n", "pass",
    "(", ")", "[", "]", "{", "}", ",", ":", ".", "=", "+", "-", "*", "/", "~", "|", "&", "<", "<=", "==", "!=", "**",
    "//", "+=", "1", "1.5", "1e5", "'t'", '"u"', "f''", "'", '"""', "if ", "else", "not ", "and ", "lambda", "# c",
    "\\", "\r\n", "\t", " ", "é", "import x\n", "person(\"v\", period)", "True", "None", "a", "b",
]


def fault_of(text, ours, peer):
    """What is wrong with our line for a text, beside that of the peer, or nothing."""
    if ours.startswith("!"):
        _, line, kind = ours.split()
        if kind not in common.MODULE_FAULTS or not common.is_line_of(line, text):
            return "no fault of one of its lines"
        return None if peer.startswith("!") else "the peer reads it"
    return None if ours == peer else "the peer reads something else, or nothing"


def drawn_texts(fuzz):
    """The texts that are tried."""
    texts = []
    for name in FILES:
        text = (common.TOP / name).read_text(encoding="utf-8")
        texts += common.changed_everywhere(fuzz.lot, text, SIGNS)
    texts += [common.row_of(fuzz.lot, PIECES, fuzz.lot.randrange(40)) for _ in range(fuzz.count)]
    return texts


def try_brackets(fuzz):
    """1 MiB of each bracket, and half of it."""
    for bracket in "([{)]}":
        whole = "A = " + bracket * (common.MOST_BYTES - 4)
        half = whole[: common.MOST_BYTES // 2]
        line, = fuzz.lines("fisca_bench", ["modules"], [whole])
        fuzz.check(line in ("! 1 TooDeep", "! 1 Syntax"), f"1 MiB of {bracket}: {line}")
        taken = []
        for text in (whole, half):
            taken.append(common.least_seconds(lambda: fuzz.lines("fisca_bench", ["modules"], [text])))
        fuzz.is_linear(f"1 MiB of {bracket}", *taken)


def run(fuzz):
    """Reads all texts."""
    fuzz.program("fisca_bench")
    peer = fuzz.peer("modules.rs")
    texts = drawn_texts(fuzz)
    read = 0
    for begin in range(0, len(texts), AT_ONCE):
        some = texts[begin:begin + AT_ONCE]
        for text, ours, theirs in zip(some, fuzz.lines("fisca_bench", ["modules"], some), fuzz.lines(peer, [], some)):
            read += not ours.startswith("!")
            fault = fault_of(text, ours, theirs)
            fuzz.check(fault is None, f"{fault}: ours {ours}, the peer {theirs}: {text[-300:]!r}")
    fuzz.note(f"{len(texts)} texts, {read} read")
    try_brackets(fuzz)
