"""Files with bytes, tokens and lines changed, over all commands that read files.

A file of tests/rules/household, or a run file, a file of columns or of tests over it, gets one to four changes by lot:
a byte, a token or a line that is taken out, doubled, moved, or put in from somewhere else, bytes that are no text among
them, or its end is cut off. Each is answered in full, ends where a value cannot be worked out, or is refused by one
line that names the file that was changed, one of its lines and a kind; or the file cannot be read where it is no text.
With --seconds S no more are drawn after so long.
"""
import collections
import re

import common
import growths
import rules

COUNT = 2000
TEXTS = {
    "run": growths.RUN, "calc": growths.COLUMNS, "test": growths.TESTS,
}
BYTES = [
    b"\0", b"\t", b"\r", b"\n", b"\x0b", b"\x7f", b"\x80", b"\xc3", b"\xff", b"\xe2\x80\xa8", b"\xef\xbb\xbf",
    b"\xc3\xa9",
]
TOKENS = [
    b"(", b")", b"[", b"]", b"{", b"}", b":", b",", b"-", b"#", b"'", b'"', b"\\", b"*", b"/", b"==", b"0", b"-1",
    b"1e5", b"9223372036854775808", b"0.1234567890123456789", b"1/3", b"null",
    b"2017-13", b"0000-01", b"9999-12", b"ETERNITY",
    b"year:2010:1200", b"person", b"period", b"parameters", b"self", b"None", b"True", b"<<", b"&a", b"|", b">",
]
PARTS = {"byte": rb"(?s).", "token": rb"\w+|[^\w\s]+|[ \t]+|\n", "line": rb"[^\n]*\n|[^\n]+\Z"}


def changed(lot, text, others):
    """Bytes with one change: of a part of them by lot."""
    kind = lot.choice([*PARTS, "end"])
    if kind == "end":
        return text[:lot.randrange(len(text) + 1)]
    parts = re.findall(PARTS[kind], text)
    if not parts:
        return text
    at, other = lot.randrange(len(parts)), lot.randrange(len(parts))
    new = {
        "byte": lambda: lot.choice(BYTES) if lot.random() < 0.5 else bytes([lot.randrange(256)]),
        "token": lambda: lot.choice(TOKENS),
        "line": lambda: lot.choice(re.findall(PARTS["line"], lot.choice(others))),
    }[kind]
    how = lot.randrange(5)
    if how == 0:
        del parts[at]
    elif how == 1:
        parts.insert(at, parts[at])
    elif how == 2:
        parts[at], parts[other] = parts[other], parts[at]
    elif how == 3:
        parts.insert(at, new())
    else:
        parts[at] = new()
    return b"".join(parts)


def is_text(content):
    """Whether bytes are UTF-8."""
    try:
        content.decode()
    except UnicodeDecodeError:
        return False
    return True


def fault_of(fuzz, command, files, path, content):
    """What is wrong with the answer to a changed file, or nothing, and how it was answered."""
    if command == "check" and is_text(content):
        return rules.fault_of(fuzz, {**files, path: content.decode()})
    words = [fuzz.room / "rules"] if command == "check" else [fuzz.room / "rules", path]
    answer = fuzz.call(command, *words)
    if is_text(content):
        return common.fault_of_file(command, answer, path, content.decode()), f"{command}, status {answer.status}"
    wanted = common.Answer("", f"fisca: {path}: cannot read", 5)
    return (None if answer == wanted else f"no refusal of bytes: {answer}"), "no text"


def run(fuzz):
    """Tries all."""
    files = growths.household()
    own = fuzz.room / "file.yaml"
    places = [*(("check", path) for path in files), *((command, own) for command in TEXTS)]
    others = [text.encode() for text in [*files.values(), *TEXTS.values()]]
    common.put(fuzz.room / "rules", files)
    kinds = collections.Counter()
    for _turn in fuzz.turns():
        command, path = fuzz.lot.choice(places)
        content = (TEXTS[command] if path == own else files[path]).encode()
        for _change in range(fuzz.lot.randint(1, 4)):
            content = changed(fuzz.lot, content, others)
        target = own if path == own else fuzz.room / "rules" / path
        target.write_bytes(content)
        fault, kind = fault_of(fuzz, command, files, path, content)
        kinds[kind] += 1
        fuzz.check(fault is None, f"{command} {path}: {fault}\n{content!r}")
        if path != own:
            target.write_bytes(files[path].encode())
    fuzz.note(", ".join(f"{kind} {count}" for kind, count in sorted(kinds.items())))
