"""Files that were cut off: each beginning of each file, cut at a character.

Of each file of tests/rules/household, checked by `fisca check`, and of a file of each of the other commands over that
rule set. A rule set is accepted, or refused by one line that names a file, one of its lines and a kind; a file is
answered in full, or refused by one line that names it, one of its lines and a kind, or ends where a value cannot be
worked out. With --count N so many beginnings of each file are tried, by lot.
"""
import common
import growths
import rules

COUNT = 0
TEXTS = {"run": growths.RUN, "calc": growths.COLUMNS, "test": growths.TESTS}


def beginnings(fuzz, text):
    """The beginnings of a text, or so many of them."""
    lengths = range(len(text) + 1)
    if fuzz.count:
        lengths = sorted(fuzz.lot.sample(lengths, min(fuzz.count, len(lengths))))
    return [text[:length] for length in lengths]


def cut_rules(fuzz, files):
    """Checks the rule set with a beginning of each of its files. Answers how many were accepted."""
    accepted = 0
    for path, text in files.items():
        common.put(fuzz.room / "rules", files)
        for one in beginnings(fuzz, text):
            (fuzz.room / "rules" / path).write_bytes(one.encode())
            fault, kind = rules.fault_of(fuzz, {**files, path: one})
            fuzz.check(fault is None, f"{path}: {fault}\n{one}")
            accepted += kind == "accepted"
    return accepted


def run(fuzz):
    """Tries all beginnings."""
    files = growths.household()
    accepted = cut_rules(fuzz, files)
    fuzz.note(f"beginnings of {len(files)} files of a rule set: {fuzz.passed + fuzz.failed}, {accepted} accepted")
    common.put(fuzz.room / "rules", files)
    path = fuzz.room / "file.yaml"
    for command, text in TEXTS.items():
        answered = 0
        for one in beginnings(fuzz, text):
            path.write_bytes(one.encode())
            answer = fuzz.call(command, fuzz.room / "rules", path)
            fault = common.fault_of_file(command, answer, path, one)
            fuzz.check(fault is None, f"{command}: {fault}: {answer}\n{one}")
            answered += answer.status != 3
        fuzz.note(f"beginnings of a file of {command}: {len(text) + 1}, {answered} answered")
