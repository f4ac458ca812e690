"""The entities of the country: persons, and the households in which they live."""

from openfisca_core.entities import build_entity

Household = build_entity(
    key="household",
    plural="households",
    label="All the people in a family or group who live together in the same place.",
    doc="""
    A household has a head, perhaps other adults, and children.
    What is paid for a dwelling or for children goes to the household.
    """,
    roles=[
        {
            "key": "head",
            "label": "Head of the household",
            "max": 1,
            "doc": "The adult in whose name the dwelling is rented or owned.",
        },
        {
            "key": "adult",
            "plural": "adults",
            "label": "Other adults",
            "doc": "All adults but the head.",
        },
        {
            "key": "child",
            "plural": "children",
            "label": "Children",
            "doc": "The children who live in the household.",
        },
    ],
)

Person = build_entity(
    key="person",
    plural="persons",
    label="An individual. The smallest unit of the law.",
    is_person=True,
)

entities = [Household, Person]
