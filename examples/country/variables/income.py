"""What persons and households receive, and what is left of it."""

from openfisca_core.holders import set_input_divide_by_period
from openfisca_core.model_api import max_
from openfisca_core.periods import MONTH, YEAR
from openfisca_core.populations import ADD
from openfisca_core.variables import Variable

from entities import Household, Person


class salary(Variable):
    value_type = float
    entity = Person
    definition_period = MONTH
    set_input = set_input_divide_by_period
    label = "Salary before contributions"
    reference = "https://www.example.org/laws/salary"


class capital_returns(Variable):
    value_type = float
    entity = Person
    definition_period = MONTH
    set_input = set_input_divide_by_period
    label = "Interest and dividends"


class disposable_income(Variable):
    value_type = float
    entity = Household
    definition_period = MONTH
    label = "What is left to the household"

    def formula(household, period):
        earned = household.members("salary", period) + household.members("capital_returns", period)
        paid = household.members("income_tax", period) + household.members("social_contribution", period)
        received = household.members("basic_income", period) + household.members("pension", period)
        return (
            household.sum(earned + received - paid)
            + household("housing_allowance", period)
            + household("parenting_allowance", period)
            + household("zone_supplement", period)
            - household("meals", period)
            - household("housing_tax_of_month", period)
        )


class disposable_income_of_year(Variable):
    value_type = float
    entity = Household
    definition_period = YEAR
    label = "What is left to the household in a year"

    def formula(household, period):
        return household("disposable_income", period, options=[ADD])


class salary_of_head(Variable):
    value_type = float
    entity = Household
    definition_period = MONTH
    label = "Salary of the head of the household, 0 where there is none"

    def formula(household, period):
        return household.head("salary", period)


class salary_rise(Variable):
    value_type = float
    entity = Person
    definition_period = MONTH
    label = "How much more the salary is than in the same month of the year before"

    def formula(person, period):
        before = person("salary", period.offset(-1, "year"))
        return max_(person("salary", period) - before, 0)
