"""What the city counts."""

from openfisca_core.model_api import *

from city.entities import Household, Person


class earners(Variable):
    value_type = int
    entity = Household
    definition_period = MONTH
    label = "Parents who have an income"

    def formula(household, period):
        return household.sum(household.members("income", period) > 0, role=Household.PARENT)


class highest_income_of_child(Variable):
    value_type = float
    entity = Household
    definition_period = MONTH
    label = "Highest income of a child, 0 where there is none"

    def formula(household, period):
        are_children = household.members.has_role(Household.CHILD)
        return household.max(where(are_children, household.members("income", period), 0))


class income_of_each(Variable):
    value_type = float
    entity = Person
    definition_period = MONTH
    label = "Income of the household for each of its persons, in whole amounts"

    def formula(person, period):
        return round_(person.household("household_income", period) / person.household.nb_persons())
