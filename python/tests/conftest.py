"""What the tests share: the rules of the repository, small ones of their own, and stand-ins for the program."""
import pathlib
import sys

import pytest

TOP = pathlib.Path(__file__).resolve().parent.parent.parent
sys.path.insert(0, str(TOP / "python"))

import fisca  # noqa: E402 (it stands beside this folder)

ENTITIES = "Person = build_entity(key='person', plural='persons', is_person=True)\n"
# the first line of a run over one axis with one column, by a shell
HEAD = "printf 'position\\trent\\thousing_benefit\\n'"
VARIABLES = """\
class Choice(Enum):
    one = "One"
    two = "Two"


class choice(Variable):
    value_type = Enum
    possible_values = Choice
    default_value = Choice.one
    entity = Person
    definition_period = MONTH


class salary(Variable):
    value_type = float
    entity = Person
    definition_period = MONTH


class share(Variable):
    value_type = float
    entity = Person
    definition_period = MONTH

    def formula(person, period):
        return 1 / person("salary", period)


class is_high(Variable):
    value_type = bool
    entity = Person
    definition_period = MONTH

    def formula(person, period):
        return person("salary", period) > 1
"""


@pytest.fixture(scope="session")
def housing():
    """The rules of examples/housing."""
    return fisca.Rules(TOP / "examples" / "housing")


@pytest.fixture
def small(tmp_path):
    """Rules of one entity: a salary, a share that it divides, a condition and a choice."""
    folder = tmp_path / "small"
    (folder / "variables").mkdir(parents=True)
    (folder / "entities.py").write_text(ENTITIES)
    (folder / "variables" / "a.py").write_text(VARIABLES)
    return fisca.Rules(folder)


@pytest.fixture
def stand_in(tmp_path):
    """Makes rules whose program is a shell's commands."""

    def made(commands):
        path = tmp_path / "program"
        path.write_text(f"#!/bin/sh\n{commands}\n")
        path.chmod(0o755)
        return fisca.Rules(tmp_path, program=path)

    return made
