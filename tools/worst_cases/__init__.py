"""Modules that are made to cost much, by families.

A family has forms. In the form `accepted` the module is valid; in `refused` the last token of its longest body is ill typed,
or else the last thing of its last section is wrong; `dead` stands before either where that code is not reached, and `open`
for blocks of which none is ended. Indices, names and orders are at random, by the seed.
"""
import random

from . import beside_lists, code, lists, outside_code, short_lists
from .kept import KEPT

# Those that cost much to check.
FAMILIES = code.FAMILIES | outside_code.FAMILIES | short_lists.FAMILIES | beside_lists.FAMILIES | lists.FAMILIES


def module_of(name, form, size, seed):
    forms, make = (FAMILIES | KEPT)[name]
    assert form in forms, f'{name} has the forms {forms}'
    return make(size, form, random.Random(seed))
