"""The variables of the example."""

from numpy import where

from openfisca_core.holders import set_input_dispatch_by_period, set_input_divide_by_period
from openfisca_core.indexed_enums import Enum
from openfisca_core.periods import MONTH, YEAR, DateUnit
from openfisca_core.populations import ADD, DIVIDE
from openfisca_core.variables import Variable

from entities import Household, Person


class Occupancy(Enum):
    tenant = "Tenant"
    owner = "Owner"


class salary(Variable):
    value_type = float
    entity = Person
    definition_period = DateUnit.MONTH
    label = "Salary"
    set_input = set_input_divide_by_period


class hours(Variable):
    value_type = int
    entity = Person
    definition_period = MONTH
    label = "Hours worked in a month"


class age(Variable):
    value_type = int
    entity = Person
    definition_period = MONTH
    label = "Age in years"
    set_input = set_input_dispatch_by_period


class rent(Variable):
    value_type = float
    entity = Household
    definition_period = MONTH
    label = "Rent"


class fee(Variable):
    value_type = float
    entity = Household
    definition_period = MONTH
    label = "Monthly fee"
    set_input = set_input_dispatch_by_period


class yearly_tax(Variable):
    value_type = float
    entity = Household
    definition_period = YEAR
    label = "Tax of a year"


class occupancy(Variable):
    value_type = Enum
    possible_values = Occupancy
    default_value = Occupancy.tenant
    entity = Household
    definition_period = MONTH
    label = "How the household occupies its dwelling"


class basic_income(Variable):
    value_type = float
    entity = Person
    definition_period = MONTH
    label = "Basic income of an adult"

    def formula_2016_12(person, period, parameters):
        "Since December 2016 it does not depend on the salary."
        return (person("age", period) >= parameters(period).general.age_of_majority) * parameters(period).benefits.basic_income

    def formula_2015_12(person, period, parameters):
        "At first it was for those without a salary alone."
        return (
            (person("age", period) >= parameters(period).general.age_of_majority)
            * (person("salary", period) == 0)
            * parameters(period).benefits.basic_income
        )


class housing_allowance(Variable):
    value_type = float
    entity = Household
    definition_period = MONTH
    label = "Housing allowance"
    end = "2016-11-30"

    def formula_1980(household, period, parameters):
        return household("rent", period) * parameters(period).benefits.housing_allowance


class contribution(Variable):
    value_type = float
    entity = Person
    definition_period = MONTH
    label = "Contribution on the salary"

    def formula(person, period, parameters):
        return parameters(period).taxes.contribution.calc(person("salary", period))


class monthly_tax(Variable):
    value_type = float
    entity = Household
    definition_period = MONTH
    label = "The month's part of the yearly tax"

    def formula(household, period, parameters):
        return household("yearly_tax", period, options=[DIVIDE])


class yearly_fee(Variable):
    value_type = float
    entity = Household
    definition_period = YEAR
    label = "The fees of a year"

    def formula(household, period, parameters):
        return household("fee", period, options=[ADD])


class bad_add(Variable):
    value_type = float
    entity = Household
    definition_period = MONTH
    label = "A sum over months of a yearly variable, which is refused"

    def formula(household, period, parameters):
        return household("yearly_tax", period, options=[ADD])


class ratio(Variable):
    value_type = float
    entity = Person
    definition_period = MONTH
    label = "Salary of an hour, 0 without hours"

    def formula(person, period, parameters):
        r = person("salary", period) / person("hours", period)
        return where(person("hours", period) > 0, r, 0)


class bare(Variable):
    value_type = float
    entity = Person
    definition_period = MONTH
    label = "Salary of an hour"

    def formula(person, period, parameters):
        return person("salary", period) / person("hours", period)


class loop(Variable):
    value_type = float
    entity = Person
    definition_period = MONTH
    label = "A value that needs itself above a salary of 1000"

    def formula(person, period, parameters):
        return where(person("salary", period) > 1000, person("loop", period), 1)


class step(Variable):
    value_type = float
    entity = Person
    definition_period = MONTH
    label = "One more than the month before"

    def formula(person, period, parameters):
        return person("step", period.last_month) + 1


class oldest_child(Variable):
    value_type = float
    entity = Household
    definition_period = MONTH
    label = "Age of the oldest child"

    def formula(household, period, parameters):
        return household.max(household.members("age", period), role=Household.CHILD)


class any_child(Variable):
    value_type = bool
    entity = Household
    definition_period = MONTH
    label = "Whether a child is below 18"

    def formula(household, period, parameters):
        return household.any(household.members("age", period) < 18, role=Household.CHILD)


class parent_pay(Variable):
    value_type = float
    entity = Household
    definition_period = MONTH
    label = "Salaries of the parents"

    def formula(household, period, parameters):
        return household.sum(household.members("salary", period), role=Household.PARENT)


class is_owner(Variable):
    value_type = bool
    entity = Household
    definition_period = MONTH
    label = "Whether the household owns its dwelling"

    def formula(household, period, parameters):
        s = household("occupancy", period)
        return s == s.possible_values.owner


class half_age(Variable):
    value_type = int
    entity = Person
    definition_period = MONTH
    label = "Half of the age, whole years"

    def formula(person, period, parameters):
        return person("age", period) / 2
