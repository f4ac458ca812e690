"""The entities of the example: persons, who live in households."""

from openfisca_core.entities import build_entity

Household = build_entity(
    key="household",
    plural="households",
    label="All the people who live in one dwelling",
    roles=[
        {
            "key": "parent",
            "plural": "parents",
            "label": "Parents",
            "subroles": ["first_parent", "second_parent"],
            "doc": "The one or two adults in charge of the household.",
        },
        {
            "key": "child",
            "plural": "children",
            "label": "Children",
            "doc": "Everyone else who lives in the household.",
        },
    ],
)

Person = build_entity(
    key="person",
    plural="persons",
    label="An individual",
    is_person=True,
)

entities = [Household, Person]
