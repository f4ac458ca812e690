"""What persons pay."""

from numpy import select

from openfisca_core.periods import MONTH
from openfisca_core.variables import Variable

from entities import Person


class income_tax(Variable):
    value_type = float
    entity = Person
    definition_period = MONTH
    label = "Income tax, by brackets"
    reference = "https://www.example.org/laws/income-tax"

    def formula(person, period, parameters):
        return parameters(period).taxes.income_tax.calc(person("salary", period))


class social_contribution(Variable):
    value_type = float
    entity = Person
    definition_period = MONTH
    label = "Contribution to the social insurances"
    documentation = """
    Until 2012 a share of the salary, since then a scale by brackets.
    """

    def formula_2013(person, period, parameters):
        return parameters(period).taxes.social_contribution.calc(person("salary", period))

    def formula(person, period):
        return person("salary", period) * 0.09


class tax_class(Variable):
    value_type = int
    entity = Person
    definition_period = MONTH
    label = "Class of the salary in statistics: 0 for none, up to 3"

    def formula(person, period):
        salary = person("salary", period)
        return select([salary == 0, salary <= 1200, salary <= 4000], [0, 1, 2], default=3)
