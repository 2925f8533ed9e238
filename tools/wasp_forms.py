"""The forms of a deck's statements, by the tables of docs/FORMATS.md, and the reading of one statement by them."""

import re
from dataclasses import dataclass

NUMBER = re.compile(r"[0-9]{1,18}\Z")
NAME_FORM = re.compile(r"[A-Za-z0-9_-]{1,8}\Z")


class Fault(Exception):
    """What is wrong with one statement, before its line is known."""


@dataclass(frozen=True)
class Form:
    """The form of a statement: index numbers, fields, and a group that is repeated `least` to `most` times."""

    index: tuple
    fields: tuple = ()
    group: tuple = ()
    least: int = 0
    most: int = 0


def _to(least, greatest):
    return range(least, greatest + 1)


NAME = "a name of 1 to 8 letters, digits, _ or -"
YEAR, CASE, PLANT, THERMAL, HYDRO = _to(1, 30), _to(1, 8), _to(1, 40), _to(1, 12), _to(1, 2)
PROJECT, PERIOD, FUEL, SHAPE = _to(1, 30), _to(1, 12), _to(1, 20), _to(1, 100)
COUNT, PROJECTS, UNIT, WATER = _to(0, 128), _to(0, 15), _to(1, 20000), _to(0, 20000)
HEAT, PRICE, FIXED, SHARE = _to(0, 50000), _to(0, 50000), _to(0, 10000), _to(0, 10000)
REPAIR, CAPITAL, STOCK, LIFE = _to(0, 8760), _to(0, 50000), _to(0, 10000), _to(1, 100)
ENERGY_COST, PARTS = _to(0, 10000000), _to(0, 1000000000)
BODY = (UNIT, UNIT, HEAT, HEAT, FUEL, FIXED, _to(0, 100000), SHARE, REPAIR)

FORMS = {
    "VERSION": Form((), (_to(1, 2),)),
    "YEARS": Form((), (YEAR,)),
    "PERIODS": Form((), ((1, 2, 3, 4, 6, 12),)),
    "RATE": Form((), (SHARE, SHARE)),
    "ESCALATE": Form((), (_to(0, 1000), _to(0, 1000))),
    "ENS": Form((), (ENERGY_COST,)),
    "ENSMORE": Form((), (ENERGY_COST, ENERGY_COST)),
    "RULE": Form((), (("MERIT", "BASE"),)),
    "CASES": Form((), (CASE,)),
    "CONDITIONS": Form((), (), (SHARE,), 1, 5),
    "GRID": Form((), (_to(1, 20),)),
    "SHAPE": Form((SHAPE,), (), (SHARE, SHARE), 2, 64),
    "LOAD": Form((YEAR,), (), (_to(1, 400000), SHAPE), 1, 12),
    "FUEL": Form((FUEL,), (PRICE, PRICE)),
    "PLANT": Form((PLANT,), (NAME, COUNT) + BODY),
    "ADD": Form((PLANT, YEAR), (COUNT,)),
    "RETIRE": Form((PLANT, YEAR), (COUNT,)),
    "THERMAL": Form((THERMAL,), (NAME, COUNT) + BODY + (CAPITAL, CAPITAL, STOCK, LIFE)),
    "HYDRO": Form((HYDRO,), (NAME, PROJECTS, PROJECTS, FIXED)),
    "PROJECT": Form((HYDRO, PROJECT), (WATER, CAPITAL, CAPITAL, LIFE)),
    "WATER": Form((HYDRO, PROJECT, PERIOD), (), (WATER, WATER, _to(0, 200000000)), 1, 5),
    "TUNNEL": Form((CASE, YEAR), (), (COUNT, COUNT), 1, 14),
    "MARGIN": Form((CASE, YEAR), (_to(0, 100000), _to(0, 100000))),
    "LOLP": Form((CASE, YEAR), (PARTS, PARTS)),
}


def _value(word, kind):
    """The value of a word that should be of this kind: a name, one of some words, or a number of a range."""
    if kind == NAME:
        if not NAME_FORM.match(word):
            raise Fault(f"'{word}' is no name of 1 to 8 letters, digits, _ or -")
        return word
    if isinstance(kind, tuple) and isinstance(kind[0], str):
        if word not in kind:
            raise Fault(f"'{word}' is none of {', '.join(kind)}")
        return word
    if not NUMBER.match(word):
        raise Fault(f"'{word}' is no whole number of 1 to 18 digits")
    if int(word) not in kind:
        raise Fault(f"{word} is out of its range")
    return int(word)


def _body_kinds(form, count):
    """The kinds of `count` words behind the head of a statement of this form."""
    rest = count - len(form.fields)
    size = len(form.group)
    if rest < form.least * size or (rest != 0 if size == 0 else rest % size != 0):
        raise Fault("a word is missing or too many")
    if rest > form.most * size:
        raise Fault("words are too many")
    return form.fields + form.group * (rest // size if size else 0)


def _head(words):
    """The head of a statement, as ('LOAD', 3), from its first words."""
    form = FORMS.get(words[0])
    if form is None:
        raise Fault(f"the word '{words[0]}' is no statement")
    numbers = words[1:1 + len(form.index)]
    if len(numbers) < len(form.index):
        raise Fault("a word is missing")
    return (words[0],) + tuple(_value(word, kind) for word, kind in zip(numbers, form.index))


def read_statement(words):
    """The head and the fields of a statement from its words; a fault in it raises Fault."""
    head = _head(words)
    rest = words[len(head):]
    kinds = _body_kinds(FORMS[head[0]], len(rest))
    return head, tuple(_value(word, kind) for word, kind in zip(rest, kinds))


def read_drop(words):
    """The head that a DROP line takes away."""
    if len(words) < 2:
        raise Fault("a word is missing")
    head = _head(words[1:])
    if len(words) != 1 + len(head):
        raise Fault("words are too many")
    return head
