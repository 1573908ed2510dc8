#!/usr/bin/env python3
"""Reads the calls of the library for C from include/pigale.h, the one place that lists them."""
import os
import re
from dataclasses import dataclass
from typing import List

ROOT = os.path.dirname(os.path.dirname(os.path.realpath(__file__)))
HEADER = f"{ROOT}/include/pigale.h"


@dataclass
class Parameter:
    """A parameter of a call: its name, its type without `const` and `*`, and whether it is a pointer, and to constants."""
    name: str
    type: str
    is_pointer: bool
    is_const: bool
    count: str = ""  # of an array the parameter that has its length; of a pointer to one value ""


@dataclass
class Call:
    """A call that the library exports: its name, the type of its result, and its parameters."""
    name: str
    result: str
    parameters: List[Parameter]
    declaration: str  # as the header has it, on one line and without its semicolon


def parameter(text):
    """Returns the parameter that a declaration has."""
    words = re.findall(r"\w+|\*", text)
    is_pointer, is_const = "*" in words, "const" in words
    *type_, name = (word for word in words if word not in ("*", "const", "struct"))
    return Parameter(name, " ".join(type_), is_pointer, is_const)


def calls():
    """Returns the calls that the header declares, in its order; what is defined in the header itself is none."""
    with open(HEADER, encoding="utf-8") as file:
        text = re.sub(r"/\*[\s\S]*?\*/|^[ \t]*#(?:.*\\\n)*.*$", " ", file.read(), flags=re.M)
    text = re.sub(r'extern\s+"C"\s*\{', " ", text)
    while re.search(r"\{[^{}]*\}", text):
        text = re.sub(r"=?\s*\{[^{}]*\}", " @ ", text)
    found = []
    for line in text.split(";"):
        line = " ".join(line.rpartition("@")[2].split())
        fits = re.fullmatch(r"(?:extern |PIGALE_\w+ )*((?:const )?\w+(?: ?\*)?) ?(pigale_\w+) ?\((.*)\)", line)
        if fits and not line.startswith(("typedef ", "static ")):
            given = [parameter(it) for it in fits[3].split(",") if it.strip() not in ("", "void")]
            for one, next_ in zip(given, given[1:]):
                if one.is_pointer and next_.type == "size_t" and not next_.is_pointer:
                    one.count = next_.name
            found.append(Call(fits[2], fits[1].strip(), given, line))
    return found


def names():
    """Returns the names of the calls, in the header's order."""
    return [call.name for call in calls()]


if __name__ == "__main__":
    print("\n".join(names()))
