"""Answers each line of standard input with yes, no or the error, by the installed package.

A line has a call and its arguments, blanks between them: numbers in decimal, byte strings in hexadecimal, lists of them with commas
between; - stands for nothing.
"""
import sys

import gawerunoa

FORMS = {"": gawerunoa.Values.VARIABLE, "sized_": gawerunoa.Values.SIZED, "fixed_": gawerunoa.Values.FIXED}


def bytes_of(word):
    return bytes.fromhex("" if word == "-" else word)


def list_of(word):
    return [] if word == "-" else [bytes_of(it) for it in word.split(",")]


def asked(words):
    """What the package answers."""
    call, rest = words[0], iter(words[1:])
    number, string = lambda: int(next(rest)), lambda: bytes_of(next(rest))
    agreed = {"family": gawerunoa.Family(number()), "hash": gawerunoa.Hash(number()), "chunk_size": number()}
    if call == "operation":
        location = number()
        return gawerunoa.check_operation(string(), string(), string(), location=location, **agreed)
    if call == "range":
        numbers = {"max_digests": number(), "start": number()}
        return gawerunoa.check_range(string(), list_of(next(rest)), list_of(next(rest)), string(), **numbers, **agreed)
    if call.startswith("string_"):
        agreed["key_lengths"] = (number(), number())
    form = call.removeprefix("string_").removesuffix("value").removesuffix("absence")
    agreed["values"] = FORMS[form]
    if call.endswith("value"):
        return gawerunoa.check_value(string(), string(), string(), string(), **agreed)
    least = number()
    agreed["value_lengths"] = (least, least if form else number())
    return gawerunoa.check_absence(string(), string(), string(), **agreed)


for line in sys.stdin:
    try:
        print("yes" if asked(line.split()) else "no")
    except (MemoryError, ValueError) as error:
        print(error)
