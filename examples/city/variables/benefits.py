"""What the city gives."""

from openfisca_core.model_api import *

from city.entities import Household, Person


class family_allowance(Variable):
    value_type = float
    entity = Household
    definition_period = MONTH
    label = "Allowance for minors, more for one parent alone, less by income"
    unit = "currency"
    reference = ["https://city.example/benefits#family", "https://city.example/charter#1"]

    def formula(household, period, parameters):
        allowance = parameters(period).benefits.family_allowance
        minors = household("minors", period)
        is_alone = household.nb_persons(Household.PARENT) == 1
        full = minors * allowance.amount + where(is_alone & (minors > 0), allowance.alone, 0)
        income_above = max_(household("household_income", period) - allowance.income_limit, 0)
        amount = max_(full - income_above * allowance.reduction, 0)
        return where(amount < allowance.smallest_amount, 0, round_(amount, 2))


class heating_grant(Variable):
    value_type = float
    entity = Household
    definition_period = MONTH
    end = "2023-04-30"
    label = "Grant for heating in the two winters in which heat was dear"
    unit = "currency"
    reference = "https://city.example/benefits#heating"

    def formula_2021_10(household, period, parameters):
        """From October to April, for households of small income that have a home to heat."""
        month = period.start.month
        is_winter = (month >= 10) | (month <= 4)
        has_home = household("home_status", period) != HomeStatus.homeless
        grants = parameters(period).benefits.heating_grant
        income_of_each = household("household_income", period) / household.nb_persons()
        is_small = income_of_each <= grants.income_limit
        return is_winter * has_home * is_small * grants.amount[household("heating", period)]


class school_lunches(Variable):
    value_type = float
    entity = Household
    definition_period = MONTH
    label = "Price of the lunches at school of the month"
    unit = "currency"
    documentation = "The price of a lunch follows the income of each person, between a lowest and a highest price."
    reference = "https://city.example/charges#lunch"

    def formula(household, period, parameters):
        lunch = parameters(period).charges.school_lunch
        income_of_each = household("household_income", period) / household.nb_persons()
        price = clip(round_(income_of_each * lunch.share_of_income, 2), lunch.lowest_price, lunch.highest_price)
        return price * household.sum(household.members("lunches", period), role=Household.CHILD)


class lunches(Variable):
    value_type = int
    entity = Person
    definition_period = MONTH
    set_input = set_input_dispatch_by_period
    label = "Lunches at school in the month"


class heat_settlement(Variable):
    value_type = float
    entity = Household
    definition_period = YEAR
    label = "What the household gets back for heat, or owes below 0"
    unit = "currency"
    documentation = "Small differences, either way, are not settled."
    reference = "https://city.example/charges#heat"

    def formula(household, period, parameters):
        difference = household("heat_advances", period, options=[ADD]) - household("heat_cost", period)
        is_small = abs_(difference) < parameters(period).charges.heat_tolerance
        return where(is_small, 0, round_(difference, 2))


class heat_advances(Variable):
    value_type = float
    entity = Household
    definition_period = MONTH
    set_input = set_input_divide_by_period
    label = "What the household paid for heat in advance"
    unit = "currency"


class heat_cost(Variable):
    value_type = float
    entity = Household
    definition_period = YEAR
    label = "What the heat of the year cost"
    unit = "currency"
