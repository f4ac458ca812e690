"""Where residents live."""

from openfisca_core.model_api import *

from city.entities import Household


class HomeStatus(Enum):
    __order__ = "owner tenant guest homeless"
    owner = "Lives in a home of their own"
    tenant = "Rents a home"
    guest = "Lives with others and pays nothing"
    homeless = "Has no home"


class Heating(Enum):
    gas = "Gas"
    oil = "Oil"
    district = "Heat of the district"
    pump = "Heat pump"


class home_status(Variable):
    value_type = Enum
    possible_values = HomeStatus
    default_value = HomeStatus.tenant
    entity = Household
    definition_period = MONTH
    set_input = set_input_dispatch_by_period
    label = "How the household occupies its home"


class heating(Variable):
    value_type = Enum
    possible_values = Heating
    default_value = Heating.district
    entity = Household
    definition_period = MONTH
    set_input = set_input_dispatch_by_period
    label = "How the home is heated"


class post_code(Variable):
    value_type = str
    max_length = 5
    entity = Household
    definition_period = MONTH
    set_input = set_input_dispatch_by_period
    label = "Post code of the home"
    metadata = {"form": "H-1", "line": 3}


class floor_area(Variable):
    value_type = float
    entity = Household
    definition_period = MONTH
    set_input = set_input_dispatch_by_period
    label = "Floor area of the home in square metres"
    unit = "m²"
