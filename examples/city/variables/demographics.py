"""Who the residents are."""

from datetime import date

from openfisca_core.model_api import *

from city.entities import Household, Person


class birth(Variable):
    value_type = date
    default_value = date(1970, 1, 1)
    entity = Person
    definition_period = ETERNITY
    label = "Date of birth. It is told, and no formula uses it"
    reference = "https://city.example/register"


# Where rules are run by OpenFisca this may be worked out from the date of birth. Here it is told.
class age(Variable):
    value_type = int
    entity = Person
    definition_period = MONTH
    set_input = set_input_dispatch_by_period
    label = "Age in years on the first day of the month"


class is_student(Variable):
    value_type = bool
    entity = Person
    definition_period = MONTH
    set_input = set_input_dispatch_by_period
    label = "Whether the person goes to a school or a university"


class is_of_age(Variable):
    value_type = bool
    entity = Person
    definition_period = MONTH
    label = "Whether the person is of age"
    reference = "https://city.example/charter#1"

    def formula(person, period, parameters):
        return person("age", period) >= parameters(period).age_of_majority


class minors(Variable):
    value_type = int
    entity = Household
    definition_period = MONTH
    label = "Children of the household who are not of age"

    def formula(household, period):
        are_children = household.members.has_role(Household.CHILD)
        return household.sum(are_children & not_(household.members("is_of_age", period)))
