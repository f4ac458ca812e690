"""What an applicant states: the home, the members of the household and what they have."""

from openfisca_core.model_api import *

from housing.entities import Household, Person


class rent(Variable):
    value_type = float
    entity = Household
    definition_period = MONTH
    set_input = set_input_dispatch_by_period
    label = "Rent of the month, without heating"
    unit = "currency"


class salary(Variable):
    value_type = float
    entity = Person
    definition_period = MONTH
    set_input = set_input_divide_by_period
    label = "Gross salary of the month"
    unit = "currency"


class savings(Variable):
    value_type = float
    entity = Household
    definition_period = YEAR
    label = "Savings on the first day of the year"
    unit = "currency"


class age(Variable):
    value_type = int
    entity = Person
    definition_period = MONTH
    set_input = set_input_dispatch_by_period
    label = "Age in years on the first day of the month"


class Occupancy(Enum):
    tenant = "Tenant"
    owner = "Owner"
    free_lodger = "Free lodger"


class occupancy(Variable):
    value_type = Enum
    possible_values = Occupancy
    default_value = Occupancy.tenant
    entity = Household
    definition_period = MONTH
    set_input = set_input_dispatch_by_period
    label = "How the household occupies its home"
