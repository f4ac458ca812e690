"""How households live."""

from openfisca_core.holders import set_input_dispatch_by_period
from openfisca_core.indexed_enums import Enum
from openfisca_core.model_api import max_, where
from openfisca_core.periods import MONTH, YEAR
from openfisca_core.populations import DIVIDE
from openfisca_core.variables import Variable

from entities import Household


class Occupancy(Enum):
    __order__ = "owner tenant free_lodger homeless"
    owner = "Owner"
    tenant = "Tenant"
    free_lodger = "Free lodger"
    homeless = "Homeless"


class Zone(Enum):
    city = "In a city"
    country = "Outside of cities"


class occupancy(Variable):
    value_type = Enum
    possible_values = Occupancy
    default_value = Occupancy.tenant
    entity = Household
    definition_period = MONTH
    label = "How the household occupies its dwelling"
    set_input = set_input_dispatch_by_period


class zone(Variable):
    value_type = Enum
    possible_values = Zone
    default_value = Zone.city
    entity = Household
    definition_period = MONTH
    label = "Where the dwelling lies"
    set_input = set_input_dispatch_by_period


class rent(Variable):
    value_type = float
    entity = Household
    definition_period = MONTH
    label = "Rent of the dwelling"
    set_input = set_input_dispatch_by_period


class floor_area(Variable):
    value_type = float
    entity = Household
    definition_period = MONTH
    label = "Floor area of the dwelling, in square metres"
    set_input = set_input_dispatch_by_period


class housing_tax(Variable):
    value_type = float
    entity = Household
    definition_period = YEAR
    label = "Tax on the dwelling that the household occupies in January"
    reference = "https://www.example.org/laws/housing-tax"

    def formula(household, period, parameters):
        """Whoever lives for nothing, or nowhere, pays nothing."""
        january = period.first_month
        tax = parameters(period).taxes.housing_tax
        amount = max_(household("floor_area", january) * tax.rate, tax.minimal_amount)
        occupancy = household("occupancy", january)
        taxed = (occupancy == Occupancy.owner) | (occupancy == Occupancy.tenant)
        return where(taxed, amount, 0)


class housing_tax_of_month(Variable):
    value_type = float
    entity = Household
    definition_period = MONTH
    label = "The month's part of the housing tax"

    def formula(household, period):
        return household("housing_tax", period, options=[DIVIDE])
