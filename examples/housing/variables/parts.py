"""The parts of the housing benefit, each by its article of the law."""

from openfisca_core.model_api import *

from housing.entities import Household


class household_income(Variable):
    value_type = float
    entity = Household
    definition_period = MONTH
    label = "Salaries of all members of the household"
    unit = "currency"
    reference = "https://law.example/housing-benefit#article-5"

    def formula(household, period):
        return household.sum(household.members("salary", period))


class passes_means_test(Variable):
    value_type = bool
    entity = Household
    definition_period = MONTH
    label = "Whether income and savings are within their limits"
    reference = "https://law.example/housing-benefit#article-6"

    def formula(household, period, parameters):
        benefit = parameters(period).housing_benefit
        limit = benefit.income_limit.first_person + benefit.income_limit.further_person * (household.nb_persons() - 1)
        has_low_income = household("household_income", period) <= limit
        has_low_savings = household("savings", period.this_year) <= benefit.savings_limit
        return has_low_income & has_low_savings


class income_reduction(Variable):
    value_type = float
    entity = Household
    definition_period = MONTH
    label = "What is taken off for income above the allowance"
    unit = "currency"
    reference = "https://law.example/housing-benefit#article-5"

    def formula(household, period, parameters):
        benefit = parameters(period).housing_benefit
        allowance = benefit.income_allowance * household.nb_persons()
        income_above = max_(household("household_income", period) - allowance, 0)
        return benefit.income_reduction.calc(income_above)


class eligible_rent(Variable):
    value_type = float
    entity = Household
    definition_period = MONTH
    label = "Rent that counts, up to a ceiling that grows with the household"
    unit = "currency"
    reference = "https://law.example/housing-benefit#article-3"

    def formula(household, period, parameters):
        ceiling = parameters(period).housing_benefit.rent_ceiling
        highest_rent = ceiling.first_person + ceiling.further_person * (household.nb_persons() - 1)
        return min_(household("rent", period), highest_rent)


class child_supplement(Variable):
    value_type = float
    entity = Household
    definition_period = MONTH
    label = "Supplement for children below the age limit"
    unit = "currency"
    reference = "https://law.example/housing-benefit#article-4"

    def formula(household, period, parameters):
        supplement = parameters(period).housing_benefit.child_supplement
        is_young = household.members("age", period) < supplement.age_limit
        return supplement.amount * household.sum(is_young, role=Household.CHILD)
