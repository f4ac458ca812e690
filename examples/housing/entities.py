"""Who the rules are about: persons, and the households in which they live."""

from openfisca_core.entities import build_entity

Person = build_entity(key="person", plural="persons", label="A person", is_person=True)
Household = build_entity(
    key="household",
    plural="households",
    label="All who live together in one home",
    roles=[
        {"key": "parent", "plural": "parents", "label": "The adults, with or without children"},
        {"key": "child", "plural": "children", "label": "The children of the household, of any age"},
    ],
)
entities = [Person, Household]
