"""Tax and benefit rules from Python, by the program `fisca`: exact fractions, and the program's own refusals.

`Rules(folder)` has a method for each command over a folder of rules; `axes` lists the values of axes alone. Nothing
beyond the standard library is needed; `Rules.frame` needs pandas. Each call starts the program once, a run with
`workers` once for each of its parts.

The program is the one that the environment variable FISCA names, else `fisca` on PATH, else `bin/fisca` of the
checkout that this package stands in. `Rules(folder, program=..)` and `axes(.., program=..)` name another one.

Numbers are `Fraction`, in the unit that the rules give their variable, or where decimals are asked for `Decimal`;
conditions are `bool`, and a member of an Enum is its name, a `str`. What the program tells on standard error is raised
as a `FiscaError`.
"""
from ._comparing import Comparison, Difference
from ._errors import Failed, FiscaError, NoValue, OutOfMemory, Refused
from ._explaining import Step
from ._lines import Amount, Situation
from ._listing import Variable
from ._rows import Row, Run, axes
from ._rules import Counts, Rules, Verdict
from ._values import Number, Value

__all__ = [
    "Amount",
    "Comparison",
    "Counts",
    "Difference",
    "Failed",
    "FiscaError",
    "NoValue",
    "Number",
    "OutOfMemory",
    "Refused",
    "Row",
    "Rules",
    "Run",
    "Situation",
    "Step",
    "Value",
    "Variable",
    "Verdict",
    "axes",
]
