#!/usr/bin/env python3
"""bin/edits.py [NAME..]: tries the must-fail edits of these crates, or of all. bin/edits.py --stand: only looks whether they still stand.

A must-fail edit, crates/NAME/must-fail/*.edit, puts a wrong body in place of a right one. The prover has to refuse the very function
that the edit changes, by a clause of its own, and not because a name is gone. First these crates are checked as they stand, which
builds the libraries below them. Then the edits are tried in copies of their crates over these libraries.

A check of an edit asks for the function that it changes, and takes what the crate's other functions promise, since they are proved as
they stand: in the copy each has a loop without an end for its body and a hole for its proof. Edits are tried in one check, a second one
of a function in a function beside it that says and proves the same under another name: what a function promises stays the same under an
edit of a body, so whether another function is proved does not hang on it.
Where such a check does not say of the very function that it is not proved, the edit is tried again with fewer beside it, and at last
alone. An edit of a constant asks for the functions that name it, one of which has to be refused. A line tells of each edit, and the
last one counts them.

With --stand nothing is proved, and it takes seconds: an edit stands where each 'old:' text is in its file once and in a body, and where
each name that it takes from another crate, as fisca_model::Value, is one that this crate's lib.rt hands out. The last line is 'N passed,
M failed'.
"""
import collections
import concurrent.futures
import importlib
import os
import pathlib
import re
import shutil
import subprocess
import sys
import tempfile
import time

TOP = pathlib.Path(__file__).resolve().parent.parent
RT = TOP / "bin" / "rt"
PROVED = ("src", "specs", "proofs")
# the bytes of memory that a check of edits may take
MEMORY = 4 << 30
# what a proof file says that only names what an edit took away
NAMES_ALONE = re.compile(r"(\./)?proofs/.*(has no field|is not in scope|has no `|was not admitted)")
SAID = re.compile(r"(note: )?\S+:\d+:\d+:")
# what it says of a function that it refuses: it is known not to be proved, or goals are left that need answers
REFUSED = re.compile(r": (not proved|no proof: expected answers in )")
HEAD = re.compile(r"^( *)(?:pub(?:\(\w+\))? )?fn (\w+)", re.M)
IMPL = re.compile(r"^impl(?:<([^>]*)>)? (?:(?:\w+::)*(\w+)(?:<(.*?)>)? for )?(?:\w+::)*(\w+)", re.M)
NAME = re.compile(r"(?<![\w'])\w+(?!\w*::)")
# a name of another crate, and those that a crate's lib.rt hands out
FOREIGN = re.compile(r"\b(fisca_\w+)::(\w+)")
HANDED_OUT = re.compile(r"^pub (?:use ([^;]+);|(?:struct|enum|trait|type|const|fn|mod) (\w+))", re.M)
TYPE = re.compile(r"^(?:pub(?:\(\w+\))? )?(?:struct|enum) (\w+)", re.M)
ATTRIBUTES = re.compile(r"(?:^ *#\[.*\]\n)*\Z", re.M)
CYCLE = re.compile(r"#\[cycle\((\w+)\)\]")
CONSTANT = re.compile(r"(?:pub(?:\(\w+\))? )?const (\w+):")
# the functions that a line says are called and are not proved themselves
CALLED = re.compile(r"; it calls ((?:`[^`]+`(?:, | and )?)+), which (?:is|are) not proved$")
# a proof that is left open: what the theorem says can be cited, and nothing is proved
HOLE = "use Rattle.{crate}.proofs.{place}.Statement.{{statement}}\n\npub {name}_spec : {{M : Type 1}} → statement M\n{name}_spec = ?\n"

# a function with a body: how the prover's name of it ends, the folders of its proof and of that of its cycle of calls, if it is in one, and
# where in a file's text its attributes, its head and its body begin, and where it ends
Function = collections.namedtuple("Function", "known_as folder cycle attributes start body end")


def crates(top=TOP):
    """The crates of the repository by name, each with the libraries that its line names, and the line."""
    found = {}
    for line in (top / "crates.txt").read_text().splitlines():
        line = line.partition("#")[0].strip()
        if line:
            name, _, libraries = line.partition(":")
            found[name.split()[0]] = (libraries.split(), line)
    return found


def below(name, known):
    """The repository's crates that a crate stands on."""
    found, left = set(), [name]
    while left:
        new = {it for it in known[left.pop()][0] if it in known} - found
        found |= new
        left += new
    return found


def edits_of(name):
    """A crate's edits, in the order of their names."""
    return sorted((TOP / "crates" / name / "must-fail").glob("*.edit"))


def modules_of(path):
    """The modules that a source file stands for, from the crate's root."""
    return [it for it in path.removeprefix("src/").removesuffix(".rt").split("/") if it != "lib"]


def owner_of(path, text, at, types):
    """The modules, and the name in a list, of the type, with those of the trait and of its arguments behind it, in whose impl block a place of a file's
    text lies. A block without a trait belongs to its type's modules, which these are by the types' names, and one with a trait to those of the
    file. In a trait's own block there is no type."""
    impls = list(IMPL.finditer(text, 0, at))
    if not impls:
        return modules_of(path), []
    parameters, trait, arguments, name = impls[-1].groups()
    if trait:
        words = [name, trait, *(it for it in NAME.findall(arguments or "") if it not in NAME.findall(parameters or ""))]
        return modules_of(path), ["".join(it[0].upper() + it[1:] for it in words)]
    return types.get(name, modules_of(path)), [name]


def functions_in(path, text, types):
    """The functions of a source file of a crate that has types in these modules, in order. The name of a function that stands alone has its module's
    name before it, that of a method its type's."""
    found, heads = [], list(HEAD.finditer(text))
    for head, after in zip(heads, heads[1:] + [None]):
        indent, name = head.groups()
        body = re.compile(rf"^{indent}(?:\S.*? )?(\{{(?:.*\}}|(?:\n(?!{indent}\}}).*)*\n{indent}\}}))$", re.M).search(text, head.start())
        if not body or after and body.start() >= after.start():
            continue
        modules, owner = owner_of(path, text, head.start(), types) if indent else (modules_of(path), [])
        attributes = ATTRIBUTES.search(text, 0, head.start())
        cycle = CYCLE.search(attributes[0])
        known_as = "::".join(["", *(owner or modules), name])
        around = "".join(f"{it}/" for it in modules + owner)
        found.append(Function(known_as, around + name, f"{around}+{cycle[1] if cycle else name}", attributes.start(), head.start(), body.start(1), body.end()))
    return found


def sources_of(folder):
    """The texts of a crate's source files by their paths, and the modules of its types by their names."""
    texts = {str(path.relative_to(folder)): path.read_text() for path in sorted((folder / "src").rglob("*.rt"))}
    return texts, {it[1]: modules_of(path) for path, text in texts.items() for it in TYPE.finditer(text)}


def functions_at(path, at, is_longer, texts, types):
    """How the prover's names end of the functions that a change at a place of a file's text changes: the one in whose body it lies, or before
    whose body, where the text there only grows longer; those that name the constant that begins there. None for another place."""
    constant = CONSTANT.match(texts[path], at)
    if constant:
        word = re.compile(rf"\b{constant[1]}\b")
        return {it.known_as for file, text in texts.items() for it in functions_in(file, text, types) if word.search(text, it.start, it.end)}
    before = [it for it in functions_in(path, texts[path], types) if it.start <= at]
    if not before or at > before[-1].end or at < before[-1].body and not is_longer:
        return None
    return {before[-1].known_as}


def changes(edit, texts, types):
    """Those of a crate's texts, by their paths, that an edit changes, as it leaves them, and the functions that it changes, by the ends of their
    names. Each 'old:' text stands once in its file."""
    path, old, changed, functions = None, None, {}, set()
    for line in edit.read_text().split("\n"):
        if line.startswith("file: "):
            path = line.removeprefix("file: ").strip()
            if path not in texts:
                raise ValueError(f"{path} is no file of src/: an edit changes a body, and no definition")
        elif line.startswith("old: "):
            old = line.removeprefix("old: ")
        elif line.startswith("new:"):
            now = texts | changed
            if path is None or old is None or now[path].count(old) != 1:
                raise ValueError(f"its text 'old: {old}' does not stand once in {path}")
            new = line.removeprefix("new:").removeprefix(" ")
            some = functions_at(path, now[path].index(old), new.startswith(old), now, types)
            if not some:
                raise ValueError(f"its text 'old: {old}' stands in no body, and begins no constant that a function names")
            functions |= some
            changed[path] = now[path].replace(old, new)
            old = None
    if not changed:
        raise ValueError("it changes nothing")
    return changed, functions


class Checks:
    """Checks of a crate in a copy of it, over the libraries that are built below a folder."""

    def __init__(self, name, top, room):
        self.name, self.folder, self.crate = name, room, TOP / "crates" / name
        self.texts, self.types = sources_of(self.crate)
        # the toolchain's own words for a check of the crate
        tools = os.path.dirname(os.path.realpath(shutil.which("rt")))
        if tools not in sys.path:
            sys.path.append(tools)
        rtlib = importlib.import_module("rtlib")
        home = str(top / "crates" / name)
        self.words = [rtlib.RATTLE, "check", *rtlib.Crate(home, rtlib.root_above(home), {}).words(["--jobs", "1"], keeps=False, as_source=False)]

    def leave_open(self, asked, texts, doubles=()):
        """Lays out the crate with these texts in place of its own, and proofs for the doubles of functions. Each function but these, and but those of
        the cycles of calls that they are in, keeps its contract, and has a loop without an end for its body and a hole for its proof. A `drop` stays as
        it is: what a function lets go is part of its own proof."""
        shutil.rmtree(self.folder)
        for part in PROVED:
            if (self.crate / part).is_dir():
                shutil.copytree(self.crate / part, self.folder / part)
        for folder, double in doubles:
            self.put_proof(folder, double)
        found = {path: functions_in(path, text, self.types) for path, text in texts.items()}
        cycles = {it.cycle for some in found.values() for it in some if it.known_as in asked}
        for path, text in texts.items():
            for it in reversed(found[path]):
                if it.known_as not in asked and it.cycle not in cycles and not it.known_as.endswith("::drop"):
                    attributes = CYCLE.sub("", text[it.attributes : it.start])
                    text = text[: it.attributes] + attributes + text[it.start : it.body] + "{ loop {} }" + text[it.end :]
                    self.put_hole(it)
            (self.folder / path).write_text(text)

    def put_hole(self, function):
        """Puts a hole in the place of the proof of a function."""
        proofs = self.folder / "proofs"
        shutil.rmtree(proofs / function.cycle, ignore_errors=True)
        at = proofs / function.folder
        at.mkdir(parents=True, exist_ok=True)
        for own in ("Invariants.antt", "Answers.antt"):
            (at / own).unlink(missing_ok=True)
        (at / "Proof.antt").write_text(HOLE.format(crate=self.name, place=function.folder.replace("/", "."), name=at.name))

    def put_proof(self, folder, double):
        """Puts the proof of a function, if it has one, in the folder of its double."""
        at, to = (self.folder / "proofs" / it for it in (folder, double))
        if at.is_dir():
            shutil.copytree(at, to)
            named = re.compile(rf"\bproofs\.{re.escape(folder.replace('/', '.'))}\b")
            for path in to.rglob("*.antt"):
                path.write_text(named.sub("proofs." + double.replace("/", "."), path.read_text()))

    def check(self, functions, texts, doubles=()):
        """Checks these functions in the crate with these texts in place of its own, over what its other functions promise. Answers the lines
        that it wrote."""
        self.leave_open(functions, self.texts | texts, doubles)
        only = [word for it in sorted(functions) for word in ("--only", it.removeprefix("::"))]
        run = subprocess.run([*self.words, "--allow-holes", *only], cwd=self.folder, stdin=subprocess.DEVNULL, stdout=subprocess.PIPE, stderr=subprocess.STDOUT, text=True, errors="replace")
        return run.stdout.splitlines()

    def side_by_side(self, edits):
        """Edits of one function each that fit beside one another, by the functions that they change, the texts with them, and the folders of the
        proofs of functions that have doubles, with those of the doubles. The second edit of a function changes a double of it."""
        some, texts, doubles = {}, self.texts, []
        for edit in edits:
            try:
                changed, functions = changes(edit, self.texts, self.types)
                function = min(functions)
                if len(functions) == 1 and function not in some:
                    some[function], texts = edit, texts | changes(edit, texts, self.types)[0]
                elif len(functions) == 1 and len(changed) == 1:
                    number = 2 + sum(it.startswith(f"{function}_again") for it in some)
                    texts, double = self.doubled(function, f"_again{number}", changed, texts)
                    some[f"{function}_again{number}"] = edit
                    doubles.append(double)
            except (OSError, ValueError):
                continue
        return some, texts, doubles

    def doubled(self, function, suffix, changed, texts):
        """The texts with a double of a function behind it, whose name has this suffix and which is as a changed text has it; and the folders of both
        proofs. A method of a trait, a function that calls itself or is in a cycle of calls, and one with closures have none."""
        (path, text), = changed.items()
        new, old = (next((it for it in functions_in(path, some, self.types) if it.known_as == function), None) for some in (text, texts[path]))
        if not new or not old:
            raise ValueError("it changes another file than that of the function")
        around, _, name = new.folder.rpartition("/")
        proofs = self.crate / "proofs"
        owner = function.split("::")[-2]
        if name == "main" or text[new.start] == " " and owner not in self.types or (proofs / new.cycle).exists() or (proofs / around / "fn" / name).exists():
            raise ValueError("it has no double")
        double = re.sub(rf"\bfn {name}\b", f"fn {name}{suffix}", text[new.attributes : new.end], count=1)
        return texts | {path: f"{texts[path][: old.end]}\n\n{double}{texts[path][old.end :]}"}, (new.folder, new.folder + suffix)

    def together(self, edits):
        """Tries edits in one check. Answers how many, and what the check said of each that it surely refused."""
        some, texts, doubles = self.side_by_side(edits)
        lines = self.check(set(some), texts, doubles) if some else []
        return len(some), {edit: line for function, edit in some.items() if (line := refused_for(function, set(some), lines))}

    def alone(self, edit):
        """Tries one edit. Answers whether it was refused, and what to say of it."""
        try:
            changed, functions = changes(edit, self.texts, self.types)
        except (OSError, ValueError) as error:
            return False, f"BAD EDIT: {error}"
        lines = self.check(functions, changed)
        line = next((line for it in sorted(functions) if (line := refused_for(it, functions, lines))), None)
        return (True, f"refused, as it must be: {line[:160]}") if line else (False, unrefused(functions, lines))


def unrefused(functions, lines):
    """What to say of an edit of which a check did not say that one of the functions that it changes is not proved by a clause of its own."""
    if not any(line.startswith("fn ") for line in lines):
        return f"BAD EDIT: it did not reach the prover: {(lines or [''])[0][:160]}"
    told = [line for line in lines if SAID.match(line) and (": error" in line or line.startswith("note: "))]
    if told and all(NAMES_ALONE.match(line) for line in told):
        return f"REFUSED BY A NAME ALONE: change a value and keep the names: {told[0][:160]}"
    own = [line for line in lines if line.startswith("fn ") and any(line.partition(": ")[0].endswith(it) for it in functions)]
    return f"NOT REFUSED by a clause of a function that it changes: {(told or own or lines)[0][:160]}"


def refused_for(function, asked, lines):
    """What a check that asked for these functions said of the one whose name ends so, or of a closure in it, where it is not proved by a clause of
    its own; None where it says anything else."""
    owner, _, own_name = function.rpartition("::")
    name = re.compile(rf"fn \w[\w:]*(?:{function}|::fn{function}::\w+|{owner}::fn::{own_name}::\w+): ")
    places = [at for at, line in enumerate(lines) if name.match(line) and REFUSED.search(line)]
    if len(places) != 1:
        return None
    folder, _, last = "/".join(lines[places[0]].removeprefix("fn ").partition(": ")[0].split("::")[1:]).rpartition("/")
    # in a folder of its own, or in that of a cycle of functions, where its goals begin with its name
    inner = re.escape(f"{folder}/" if folder else "")
    own = re.compile(rf"\./proofs/{inner}(?:{re.escape(last)}/.*: error|\+\w+/.*: error: `{re.escape(last)}-)")
    own = [line for line in lines if own.match(line) and SAID.match(line) and not NAMES_ALONE.match(line)]
    for line in reversed(lines[: places[0]]):
        if line.startswith("fn "):
            break
        own += [line] * line.startswith("note: src/")
    # where the search for a goal ended at its limit, the function's line alone names the goal
    line = lines[places[0]]
    return own[0] if own else line if "; `search` did not prove `" in line and calls_no(asked, line) else None


def calls_no(asked, line):
    """Whether the functions that a line says are called, and are not proved themselves, are holes, and none of those that were asked for."""
    called = CALLED.search(line)
    names = re.findall(r"`([^`]+)`", called[1]) if called else []
    return (bool(called) or "; it calls " not in line) and not any(f"::{name}".endswith(it) for name in names for it in asked)


def attempts(name, top, tell):
    """Tries the edits of a crate, which is proved as it stands, over the libraries that are built below a folder. Answers the names of those
    that were refused."""
    refused, left = [], edits_of(name)
    with tempfile.TemporaryDirectory(prefix="fisca-edits-") as room:
        checks = Checks(name, top, pathlib.Path(room))
        while left:
            began = time.monotonic()
            count, said = checks.together(left)
            if not said:
                break
            tell(f"must-fail {name}: {len(said)} of {count} edits refused in one check ({time.monotonic() - began:.0f} s)")
            for edit, line in said.items():
                tell(f"must-fail {name}/{edit.name}: refused, as it must be: {line[:160]}")
                left.remove(edit)
                refused.append(edit.name)
        for edit in left:
            began = time.monotonic()
            well, said = checks.alone(edit)
            tell(f"must-fail {name}/{edit.name}: {said} ({time.monotonic() - began:.0f} s)")
            refused += [edit.name] * well
    return refused


def handed_out(crate):
    """The names that a crate's lib.rt hands out."""
    found = HANDED_OUT.findall((TOP / "crates" / crate / "src" / "lib.rt").read_text())
    return {name for used, own in found for name in [own, *re.findall(r"\w+", used)] if name}


def fallen(edit, texts, types, known):
    """Why an edit of a crate that has these texts and types does not stand. Nothing where it does."""
    try:
        changes(edit, texts, types)
    except (OSError, ValueError) as error:
        return str(error)
    news = (line for line in edit.read_text().split("\n") if line.startswith("new:"))
    gone = [f"{crate}::{name}" for line in news for crate, name in FOREIGN.findall(line) if crate not in known or name not in handed_out(crate)]
    return f"no crate hands out {gone[0]}" if gone else ""


def look(known):
    """Tells of each edit that does not stand. Answers how many do, and how many do not."""
    passed = failed = 0
    for name in known:
        texts, types = sources_of(TOP / "crates" / name) if edits_of(name) else ({}, {})
        for edit in edits_of(name):
            why = fallen(edit, texts, types, known)
            passed, failed = passed + (not why), failed + bool(why)
            if why:
                print(f"must-fail {name}/{edit.name}: BAD EDIT: {why}")
    return passed, failed


def workers():
    """How many checks of edits fit side by side on this machine."""
    memory = os.sysconf("SC_PAGE_SIZE") * os.sysconf("SC_PHYS_PAGES")
    return max(1, min(int(os.environ.get("RT_JOBS") or os.cpu_count() or 1), memory // MEMORY))


def try_edits(names, tell=print, top=TOP):
    """Tries the edits of these crates, which are proved as they stand and whose libraries are built below a folder. Answers for each crate
    the names of the edits that were refused."""
    known = crates()
    # those of the crates that stand on most take longest
    order = sorted(names, key=lambda it: -len(below(it, known)) * len(edits_of(it)))
    with concurrent.futures.ThreadPoolExecutor(workers()) as pool:
        return dict(zip(order, pool.map(lambda it: attempts(it, top, tell), order)))


def check_all(names, tell):
    """Whether these crates are proved as they stand, over what earlier checks in this checkout keep. It builds the libraries below them."""
    for name in names:
        checked = subprocess.run([RT, "check", "--jobs", "1"], cwd=TOP / "crates" / name, stdin=subprocess.DEVNULL, stdout=subprocess.PIPE, stderr=subprocess.STDOUT, text=True, errors="replace")
        if checked.returncode:
            tell(f"{name} is not proved as it stands: {(checked.stdout.splitlines() or [''])[-1]}")
            return False
    return True


def say(line):
    """Prints a line at once."""
    print(line, flush=True)


def main(words):
    if words == ["--stand"]:
        passed, failed = look(crates())
        print(f"{passed} passed, {failed} failed")
        return int(failed != 0)
    names = words or [name for name in crates() if edits_of(name)]
    unknown = [name for name in names if name not in crates()]
    if unknown:
        print(f"bin/edits.py: no crate {unknown[0]}", file=sys.stderr)
        return 2
    if not shutil.which("rt"):
        print("bin/edits.py: no command rt (the Rattle toolchain) on PATH", file=sys.stderr)
        return 127
    if not check_all(names, say):
        return 1
    refused = try_edits(names, say)
    wanted = sum(len(edits_of(name)) for name in names)
    count = sum(map(len, refused.values()))
    print(f"{count} edits refused, {wanted - count} not")
    return int(count != wanted)


if __name__ == "__main__":
    sys.exit(main(sys.argv[1:]))
