"""Who lives in the city: persons, and the households in which they live."""

from openfisca_core.entities import build_entity

Household = build_entity(
    key="household",
    plural="households",
    label="All who live together in one home",
    doc="""
    A household has one or two parents, with or without children. Who lives alone is a parent of a household.
    Taxes on the home, charges and most benefits are the household's.
    """,
    roles=[
        {
            "key": "parent",
            "plural": "parents",
            "label": "Parents",
            "doc": "The one or two adults in charge of the household.",
            "subroles": ["first_parent", "second_parent"],
        },
        {
            "key": "child",
            "plural": "children",
            "label": "Children",
            "doc": "All others, of any age.",
        },
    ],
)

Person = build_entity(
    key="person",
    plural="persons",
    label="A resident of the city",
    is_person=True,
)

entities = [Household, Person]
