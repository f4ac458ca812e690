"""Who the persons are."""

from datetime import date

from openfisca_core.holders import set_input_dispatch_by_period
from openfisca_core.model_api import not_
from openfisca_core.periods import DAY, ETERNITY, MONTH
from openfisca_core.variables import Variable

from entities import Household, Person


class birth(Variable):
    value_type = date
    default_value = date(1970, 1, 1)
    entity = Person
    definition_period = ETERNITY
    label = "Date of birth. It is told, and no formula uses it"
    reference = "https://www.example.org/laws/registry"


class name_on_letters(Variable):
    value_type = str
    entity = Person
    definition_period = ETERNITY
    label = "How letters address the person"


class age(Variable):
    value_type = int
    entity = Person
    definition_period = MONTH
    label = "Age in years"
    set_input = set_input_dispatch_by_period


class is_adult(Variable):
    value_type = bool
    entity = Person
    definition_period = MONTH
    label = "Whether the person is of age"

    def formula(person, period, parameters):
        return person("age", period) >= parameters(period).general.age_of_majority


class is_retired(Variable):
    value_type = bool
    entity = Person
    definition_period = MONTH
    label = "Whether the person may draw a pension"

    def formula(person, period, parameters):
        return person("age", period) >= parameters(period).general.age_of_retirement


class minors(Variable):
    value_type = int
    entity = Household
    definition_period = MONTH
    label = "Number of children who are not of age"

    def formula(household, period):
        return household.sum(not_(household.members("is_adult", period)), role=Household.CHILD)


class present(Variable):
    value_type = int
    entity = Person
    definition_period = DAY
    label = "1 on a day on which the child is at the day care, else 0"
    set_input = set_input_dispatch_by_period
