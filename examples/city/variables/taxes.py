"""What residents and households owe the city."""

from openfisca_core.model_api import *

from city.entities import Household, Person


class work_expenses(Variable):
    value_type = float
    entity = Person
    definition_period = YEAR
    label = "What is taken off the salary of the year for the expenses of work"
    unit = "currency"
    documentation = "A share of the salary, within bounds, and never more than the salary."
    reference = "https://city.example/taxes#3"

    def formula(person, period, parameters):
        expenses = parameters(period).taxes.work_expenses
        salary = person("salary", period, options=[ADD])
        return min_(clip(salary * expenses.share, expenses.lowest, expenses.highest), salary)


class taxable_income(Variable):
    value_type = float
    entity = Person
    definition_period = YEAR
    label = "Income of the year that is taxed, in whole tens"
    unit = "currency"
    reference = "https://city.example/taxes#4"

    def formula(person, period):
        income = person("income", period, options=[ADD])
        return floor((income - person("work_expenses", period)) / 10) * 10


class city_tax(Variable):
    value_type = float
    entity = Person
    definition_period = YEAR
    label = "City tax of the year, in whole amounts"
    unit = "currency"
    reference = "https://city.example/taxes#5"

    def formula_2021(person, period, parameters):
        return round_(parameters(period).taxes.city_tax.calc(person("taxable_income", period)))


class home_tax(Variable):
    value_type = float
    entity = Household
    definition_period = YEAR
    label = "Tax on the home that the household has in January"
    unit = "currency"
    documentation = "Owners and tenants pay by the floor area. Guests, and who has no home, pay nothing."
    reference = "https://city.example/taxes#9"

    def formula(household, period, parameters):
        january = period.first_month
        tax = parameters(period).taxes.home_tax
        amount = max_(household("floor_area", january) * tax.rate, tax.lowest_amount)
        status = household("home_status", january)
        HomeStatus = status.possible_values
        is_owner = status == HomeStatus.owner
        is_tenant = status == HomeStatus.tenant
        return (is_owner + is_tenant) * round_(amount, 2)


class waste_charge(Variable):
    value_type = float
    entity = Household
    definition_period = MONTH
    label = "Charge for the waste of the household, by the number of its persons"
    unit = "currency"
    reference = "https://city.example/charges#waste"

    def formula(household, period, parameters):
        has_home = household("home_status", period) != HomeStatus.homeless
        return has_home * parameters(period).charges.waste.calc(household.nb_persons())


class waste_share(Variable):
    value_type = float
    entity = Person
    definition_period = MONTH
    label = "The person's share of the waste charge, in cents that are rounded up"
    unit = "currency"
    reference = "https://city.example/charges#waste"

    def formula(person, period):
        share = person.household("waste_charge", period) / person.household.nb_persons()
        return ceil(share * 100) / 100


class transit_pass(Variable):
    value_type = float
    entity = Person
    definition_period = MONTH
    label = "Price of a month's pass for trams and buses"
    unit = "currency"
    documentation = """
    Small children need no pass. In a household with many children these pay nothing. Minors and students pay a part.
    """
    reference = "https://city.example/charges#transit"

    def formula_2022_07(person, period, parameters):
        transit = parameters(period).charges.transit
        age = person("age", period)
        children = person.household.nb_persons(Household.CHILD)
        is_of_many = person.has_role(Household.CHILD) & (children >= transit.many_children)
        is_reduced = not_(person("is_of_age", period)) | person("is_student", period)
        return select(
            [(age < transit.free_age) | is_of_many, is_reduced],
            [0, round_(transit.price * transit.reduced_share, 1)],
            default=transit.price,
        )

    def formula(person, period, parameters):
        """At first all who need a pass pay one price."""
        transit = parameters(period).charges.transit
        return where(person("age", period) < transit.free_age, 0, transit.price)
