"""What residents live on."""

from openfisca_core.model_api import *

from city.entities import Household, Person


class salary(Variable):
    value_type = float
    entity = Person
    definition_period = MONTH
    set_input = set_input_divide_by_period
    label = "Gross salary of the month"
    unit = "currency"


class pension(Variable):
    value_type = float
    entity = Person
    definition_period = YEAR
    label = "Pension of each month of the year"
    unit = "currency"
    documentation = """
    The first one is told. From then on each January's is the one before, raised by the index and rounded to cents.
    """
    reference = "https://city.example/pensions#2"

    def formula_2020(person, period, parameters):
        index = parameters(period).pension.index
        return round_(person("pension", period.last_year) * (1 + index), 2)


class income(Variable):
    value_type = float
    entity = Person
    definition_period = MONTH
    label = "Salary and pension of the month"
    unit = "currency"

    def formula(person, period):
        return person("salary", period) + person("pension", period.this_year)


class household_income(Variable):
    value_type = float
    entity = Household
    definition_period = MONTH
    label = "Income of all who live in the household, before taxes"
    unit = "currency"

    def formula(household, period):
        return household.sum(household.members("income", period))


class disposable_income(Variable):
    value_type = float
    entity = Household
    definition_period = MONTH
    label = "What the month leaves to the household, in cents"
    unit = "currency"

    def formula(household, period):
        taxes = household.sum(household.members("city_tax", period, options=[DIVIDE]))
        passes = household.sum(household.members("transit_pass", period))
        received = household("family_allowance", period) + household("heating_grant", period)
        charges = household("waste_charge", period) + household("school_lunches", period)
        home_tax = household("home_tax", period, options=[DIVIDE])
        return round_(household("household_income", period) + received - charges - passes - taxes - home_tax, 2)


class disposable_income_of_year(Variable):
    value_type = float
    entity = Household
    definition_period = YEAR
    label = "What the year leaves to the household"
    unit = "currency"

    def formula(household, period):
        return household("disposable_income", period, options=[ADD])
