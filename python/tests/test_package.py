"""The package as it is installed, and the page docs/PYTHON.md."""
import ast
import contextlib
import importlib.util
import io
import os
import re
import shutil
import subprocess
import sys

import pytest
from conftest import TOP

import fisca

PYTHON = TOP / "python"


@pytest.mark.parametrize("page, least", [("PYTHON.md", 6), ("ANALYSTS.md", 0)])
def test_the_page_is_true(page, least, monkeypatch, tmp_path):
    (tmp_path / "fisca").symlink_to(os.path.abspath(fisca._program.program_of(None)))
    monkeypatch.setenv("PATH", f"{tmp_path}:{os.environ['PATH']}")
    monkeypatch.chdir(TOP)
    blocks = re.findall(r"^```(\w+)\n(.*?)^```$", (TOP / "docs" / page).read_text(encoding="utf-8"), re.M | re.S)
    names, tried = {}, 0
    for (language, text), (following, wanted) in zip(blocks, [*blocks[1:], ("", "")]):
        needs_pandas = ".frame(" in text or "import pandas" in text
        if language != "python" or needs_pandas and importlib.util.find_spec("pandas") is None:
            continue
        with contextlib.redirect_stdout(io.StringIO()) as printed:
            exec(compile(text, page, "exec"), names)
        assert following == "text" and printed.getvalue() == wanted
        tried += 1
    assert tried >= least


@pytest.mark.skipif(importlib.util.find_spec("matplotlib") is None, reason="no matplotlib here: no picture was drawn")
def test_pictures_are_drawn(tmp_path):
    # what is printed beside a picture is compared by bin/documents
    code = "import sys; sys.path.insert(0, 'docs/analysts')\nimport net_income, marginal_rates, reform\n"
    for name in ("net_income", "marginal_rates", "reform"):
        more = ["--families", "100"] * (name == "reform")
        code += f"sys.argv = {[name, *more, str(tmp_path / f'{name}.png')]}\n{name}.main()\n"
    environment = {**os.environ, "PYTHONPATH": str(PYTHON), "FISCA": fisca._program.program_of(None)}
    subprocess.run([sys.executable, "-B", "-c", code], check=True, cwd=TOP, env=environment, capture_output=True)
    found = [it.read_bytes() for it in sorted(tmp_path.iterdir())]
    assert len(found) == 3 and all(it.startswith(b"\x89PNG") and len(it) > 10_000 for it in found)


def test_it_is_read_by_python_3_9():
    for path in (PYTHON / "fisca").glob("*.py"):
        ast.parse(path.read_text(encoding="utf-8"), feature_version=(3, 9))


def test_it_has_the_version_of_the_program():
    told = re.search(r'^version = "(.*)"$', (PYTHON / "pyproject.toml").read_text(), re.M)[1]
    program = fisca._program.program_of(None)
    ran = subprocess.run([program, "--version"], stdin=subprocess.DEVNULL, capture_output=True, text=True, check=True)
    assert ran.stdout == f"fisca {told}\n"


def test_all_that_is_public_is_described():
    for name in fisca.__all__:
        it = getattr(fisca, name)
        if name not in ("Number", "Value"):
            assert it.__doc__ and len(it.__doc__) > 20, name
            public = [key for key in vars(it) if not key.startswith("_")] if isinstance(it, type) else []
            assert all(getattr(it, key).__doc__ for key in public if callable(getattr(it, key))), name


def test_pip_installs_it(tmp_path):
    # setuptools reads pyproject.toml since 61; an older one than 70.1 makes no wheels by itself
    pytest.importorskip("setuptools", "61", reason="no setuptools here: pip install was not tried")
    makes_wheels = importlib.util.find_spec("setuptools.command.bdist_wheel") is not None
    for name in ("pip",) if makes_wheels else ("pip", "wheel"):
        pytest.importorskip(name, reason=f"no {name} here: pip install was not tried")
    # pip builds beside the sources
    ignored = shutil.ignore_patterns("build", "*.egg-info", "__pycache__")
    source = shutil.copytree(PYTHON, tmp_path / "source", ignore=ignored)
    words = [sys.executable, "-m", "pip", "install", "-q", "--no-build-isolation", "--no-deps", "--no-index"]
    environment = {**os.environ, "PIP_DISABLE_PIP_VERSION_CHECK": "1"}
    subprocess.run([*words, "--target", tmp_path / "there", source], check=True, cwd=tmp_path, env=environment)
    there = tmp_path / "there" / "fisca"
    assert sorted(it.name for it in there.iterdir() if it.is_file()) == sorted(
        it.name for it in (PYTHON / "fisca").iterdir() if it.is_file()
    )
    program = fisca._program.program_of(None)
    code = "import fisca, sys; print(fisca.__file__, fisca.Rules(sys.argv[1]).check().variables)"
    environment = {**os.environ, "PYTHONPATH": str(tmp_path / "there"), "FISCA": program}
    words = [sys.executable, "-c", code, TOP / "examples" / "housing"]
    ran = subprocess.run(words, check=True, cwd=tmp_path, env=environment, capture_output=True, text=True)
    assert ran.stdout == f"{there / '__init__.py'} 12\n"
