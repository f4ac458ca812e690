"""What persons and households receive from the state."""

from openfisca_core.periods import DAY, MONTH
from openfisca_core.populations import ADD
from openfisca_core.variables import Variable

from entities import Household, Person


class basic_income(Variable):
    value_type = float
    entity = Person
    definition_period = MONTH
    label = "Basic income of adults"
    reference = "https://www.example.org/laws/basic-income"

    def formula_2016_12(person, period, parameters):
        """Since December 2016 it does not depend on the salary."""
        return person("is_adult", period) * parameters(period).benefits.basic_income

    def formula_2015_12(person, period, parameters):
        """At first it was for those without a salary alone."""
        without_salary = person("salary", period) == 0
        return person("is_adult", period) * without_salary * parameters(period).benefits.basic_income


class pension(Variable):
    value_type = float
    entity = Person
    definition_period = MONTH
    label = "Pension of those who have reached the age for it"

    def formula(person, period, parameters):
        return person("is_retired", period) * parameters(period).benefits.pension


class housing_allowance(Variable):
    value_type = float
    entity = Household
    definition_period = MONTH
    end = "2016-11-30"
    label = "Housing allowance of tenants, a share of the rent"
    reference = ["https://www.example.org/laws/housing-allowance", "https://www.example.org/laws/basic-income"]
    unit = "currency-EUR"

    def formula_1980(household, period, parameters):
        """It ended when the basic income became unconditional."""
        occupancy = household("occupancy", period)
        is_tenant = occupancy == occupancy.possible_values.tenant
        return is_tenant * household("rent", period) * parameters(period).benefits.housing_allowance


class parenting_allowance(Variable):
    value_type = float
    entity = Household
    definition_period = MONTH
    label = "Allowance for parents of small income, or who are alone with a small child"

    def formula(household, period, parameters):
        allowance = parameters(period).benefits.parenting_allowance
        income = household.sum(household.members("salary", period))
        is_poor = income <= allowance.income_threshold
        is_alone = household.nb_persons(Household.HEAD) + household.nb_persons(Household.ADULT) == 1
        has_small_child = household.any(household.members("age", period) < 6, role=Household.CHILD)
        is_entitled = (household("minors", period) > 0) & (is_poor | is_alone & has_small_child)
        return is_entitled * allowance.amount


class zone_supplement(Variable):
    value_type = float
    entity = Household
    definition_period = MONTH
    label = "Supplement by where the dwelling lies and how it is occupied"

    def formula(household, period, parameters):
        return parameters(period).benefits.zone_supplement[household("zone", period)][household("occupancy", period)]


class meal_cost(Variable):
    value_type = float
    entity = Person
    definition_period = DAY
    label = "Price of the meals at the day care on a day"

    def formula(person, period, parameters):
        return person("present", period) * parameters(period).benefits.meal


class meals(Variable):
    value_type = float
    entity = Household
    definition_period = MONTH
    label = "Price of the meals of the household's children in a month"

    def formula(household, period):
        return household.sum(household.members("meal_cost", period, options=[ADD]), role=Household.CHILD)
