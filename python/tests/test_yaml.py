"""Files of runs, in all the forms that the program reads."""
import json

import pytest
from conftest import TOP

from fisca._files import count_of_axes
from fisca._yaml import read

BRACKETS = """\
axes: [[{name: salary, count: 2, min: 0, max: 1}], [{name: rent, count: 2, min: 0, max: 1}]]
columns: [a, b@2017-01]
"""
JSON = """\
{"axes": [[{"name":"salary", "count": 2}], [{"name": "rent"}]], "columns": ["a", "b@2017-01"]}
"""
LINES = """\
---  # a run
axes:  # two
- - name: salary  # turns fastest
    count: 2
- - {name: rent, count: 2,}
columns:
- a # first
- b@2017-01
"""
QUOTES = """\
columns:
  - 'a'
  - "b\\x402017-01"
'axes':
  -
    - 'name': "salary"
      count: 2
  - [{name: rent}, ]
"""
TEXTS = """\
input:
  persons:
    'Ann: # B':
      note: |
        axes: [[{name: no}]]
       columns: no
      salary: 1
"a\\u0078es":
# between
-
   -
      name: salary
-\t- name: rent
    count: 1
columns: [ a ,b@2017-01 ] # all
"""
LAST = """\
axes: [[{name: salary, min: }], [{"name" : 'rent'}]]
filter: a >= 0 # and no more
columns:
- a
- b@2017-01"""
FORMS = [BRACKETS, JSON, LINES, LINES.replace("\n", "\r\n"), QUOTES, TEXTS, LAST]


@pytest.mark.parametrize("text", FORMS)
def test_forms(text):
    found = read(text)
    assert [[axis["name"] for axis in group] for group in found["axes"]] == [["salary"], ["rent"]]
    assert found["columns"] == ["a", "b@2017-01"]
    assert count_of_axes(found) == 2


def test_axes_that_move_together():
    text = "axes:\n- - {name: a, period: 2017-01, index: 0}\n"
    text += "  - {name: a, index: 2}\n  - {name: b, period: 2017}\n- - {name: c}\ncolumns: a#1@2017 # one\n"
    assert count_of_axes(read(text)) == 4
    assert read(text)["columns"] == "a#1@2017"


def test_trees():
    assert read("a:\n- b: 1\n  c:\n    - x\n    -\n- it's: it's # so\nd: >-\n  text\n\n  more\ne: 'it''s'\n") == {
        "a": [{"b": "1", "c": ["x", None]}, {"it's": "it's"}], "d": "", "e": "it's"
    }
    found = read("- - - a\n    - b\n  - [c, {d: [e], f}]\n- # no\n")
    assert found == [[["a", "b"], ["c", {"d": ["e"], "f": None}]], None]
    assert read("a: x[1]#2\nb: [u[v, 'w,x', \"y]\" ]\nc: http://x:80/#y\n") == {
        "a": "x[1]#2", "b": ["u[v", "w,x", "y]"], "c": "http://x:80/#y"
    }


def test_files_of_the_repository_are_read_as_yaml_reads_them():
    yaml = pytest.importorskip("yaml", reason="no PyYAML here: the reader was tried by hand-written texts alone")
    paths = [it for folder in ("examples", "tests/rules") for it in (TOP / folder).rglob("*.yaml")]
    assert len(paths) > 20

    def plain(tree):
        if isinstance(tree, dict):
            return {it.value if isinstance(it, yaml.Node) else it: plain(value) for it, value in tree.items()}
        return [plain(it) for it in tree] if isinstance(tree, list) else tree or None

    for path in paths:
        wanted = yaml.load(path.read_text(encoding="utf-8"), Loader=yaml.BaseLoader)
        found = read(path.read_text(encoding="utf-8"))
        assert json.dumps(plain(found)) == json.dumps(plain(wanted)), path
