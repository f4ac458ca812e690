"""The housing benefit."""

from openfisca_core.model_api import *

from housing.entities import Household


class housing_benefit(Variable):
    value_type = float
    entity = Household
    definition_period = MONTH
    label = "Housing benefit of the month"
    unit = "currency"
    reference = "https://law.example/housing-benefit"

    def formula_2024(household, period, parameters):
        """Tenants who pass the means test are paid what is due, where it is not too small."""
        benefit = parameters(period).housing_benefit
        share_of_rent = benefit.rent_share * household("eligible_rent", period)
        supplement = household("child_supplement", period)
        reduction = household("income_reduction", period)
        amount = min_(share_of_rent + supplement - reduction, household("rent", period))
        occupancy = household("occupancy", period)
        is_tenant = occupancy == occupancy.possible_values.tenant
        is_entitled = is_tenant & household("passes_means_test", period)
        return where(is_entitled & (amount >= benefit.smallest_amount), amount, 0)


class housing_benefit_of_year(Variable):
    value_type = float
    entity = Household
    definition_period = YEAR
    label = "Housing benefit of the year"
    unit = "currency"
    reference = "https://law.example/housing-benefit#article-7"

    def formula(household, period):
        return household("housing_benefit", period, options=[ADD])
