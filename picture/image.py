"""Reads the text of an image (docs/FORMATS.md), and says where its map leads."""

import re
from bisect import bisect_right
from collections import namedtuple

LARGEST = 16 * 1024 * 1024
# A picture of more places or arrows could not be read, and takes `dot` minutes.
MOST_PLACES, MOST_ARROWS = 1000, 5000
CODE, WORD = 0x10000, 4
HALT, BREAK, BREAK_MASK = 0xD4000001, 0xD4200000, 0xFFE0001F
WORDS = {"jump": 1, "branch": 3, "call": 1, "icall": 2, "ret": 2, "begin": 2, "end": 2, "check": 2, "use": 5, "def": 5, "useat": 10, "defat": 10}
NUMBERED = ("jump", "branch", "call", "icall", "ret")
STOPS = (*NUMBERED, "begin", "end")
LEAVES = ("jump", "branch", "ret")

ADDRESS, NUMBER, NAME = "([0-9A-F]{8})", "(0|[1-9][0-9]{0,9})", "([A-Za-z_][A-Za-z0-9_]{0,31})"
HEADER = re.compile("oat-image ([12])")
SECTIONS = {
    "code": re.compile(ADDRESS),
    "data": re.compile(f"{NUMBER} ([0-9A-F]{{16}})"),
    "cells": re.compile(NUMBER),
    "functions": re.compile(f"{ADDRESS} {NAME} ([0-4]) ([01])"),
    "blocks": re.compile(f"{ADDRESS} {NAME}"),
    "rows": re.compile(
        f"(?:jump|call) {ADDRESS} {ADDRESS}|branch {ADDRESS} {ADDRESS} {ADDRESS}|icall {ADDRESS} [0-4]|(?:ret|check) {ADDRESS}"
        f"|(?:begin|end|use|def) {ADDRESS} {NUMBER}|(?:useat|defat) {ADDRESS} {NUMBER} {NUMBER}"
    ),
}

# A place is a function's entry, then its label is empty, or a block's start.
Place = namedtuple("Place", "address name function label")
Function = namedtuple("Function", "address name params referenced")
# `values` are the numbers behind the address, `end` is the address after the group.
Row = namedtuple("Row", "kind address values end")
# The kind is that of the row, of a branch its bit, and "fall" where code goes on into the next place. Source and target are numbers of places.
Arrow = namedtuple("Arrow", "kind source target")
# What no row explains: the two addresses.
Stray = namedtuple("Stray", "source target")


class Fault(Exception):
    """Why there is no picture, in one line."""


def row_of(line):
    kind, address, *values = line.split(" ")
    at = int(address, 16)
    base = 16 if kind in ("jump", "branch", "call") else 10
    return Row(kind, at, tuple(int(value, base) for value in values), at + WORD * WORDS[kind])


class Image:
    """The functions, places and rows of an image, and the arrows between its places."""

    def __init__(self, file):
        sections = self._sections(file)
        self.code = [int(line, 16) for line in sections["code"]]
        self.functions = [
            Function(int(address, 16), name, int(params), referenced == "1")
            for address, name, params, referenced in (line.split(" ") for line in sections["functions"])
        ]
        self.rows = [row_of(line) for line in sections["rows"]]
        self._ends = [row.end for row in self.rows]
        if any(later.address < row.end for row, later in zip(self.rows, self.rows[1:])):
            raise Fault("its rows don't rise")
        self.places = self._places([line.split(" ") for line in sections["blocks"]])
        self._addresses = [place.address for place in self.places]
        self.place_named = {place.name: number for number, place in enumerate(self.places)}
        if len(set(self._addresses)) < len(self.places) or len(self.place_named) < len(self.places):
            raise Fault("two of its places are the same")
        self.sites = self._sites()
        self.row_named = {name: number for number, name in self.sites.items()}
        self.arrows = self._arrows()

    @staticmethod
    def _sections(file):
        """The lines of each section."""
        text = file.read(LARGEST + 1)
        lines = text.decode("ascii", "replace").split("\n")
        at = 0

        def take(pattern):
            nonlocal at
            found = pattern.fullmatch(lines[at]) if at < len(lines) else None
            at += 1
            if len(text) > LARGEST or not found:
                raise Fault(f"line {at} is none of an image")
            return found

        take(HEADER)
        sections = {}
        for name, pattern in SECTIONS.items():
            count = int(take(re.compile(f"{name} {NUMBER}"))[1])
            sections[name] = [take(pattern)[0] for _ in range(count)]
        take(re.compile("end"))
        if lines[at:] != [""]:
            raise Fault(f"line {at + 1} is none of an image")
        return sections

    def _places(self, blocks):
        entries = [function.address for function in self.functions]
        places = [Place(function.address, function.name, number, "") for number, function in enumerate(self.functions)]
        for address, label in blocks:
            number = bisect_right(entries, int(address, 16)) - 1
            if number < 0:
                raise Fault(f"its block {label} lies in no function")
            places.append(Place(int(address, 16), f"{self.functions[number].name}.{label}", number, label))
        return sorted(places)

    def place_over(self, address):
        """The number of the greatest place at or below an address of code, or None."""
        number = bisect_right(self._addresses, address) - 1
        return number if number >= 0 and address < CODE + WORD * len(self.code) else None

    def row_over(self, address):
        """The number of the first row whose group isn't wholly below an address: the next one that is executed from there."""
        return bisect_right(self._ends, address)

    def stop_from(self, address):
        """The number of the next row that transfers control, begins or ends an operation; and those of the rows that are passed before."""
        number = first = self.row_over(address)
        while number < len(self.rows) and self.rows[number].kind not in STOPS:
            number += 1
        return number, range(first, number)

    def _sites(self):
        """The site of each row that transfers control, by the row's number."""
        sites, counts = {}, {}
        for number, row in enumerate(self.rows):
            if row.kind in NUMBERED:
                place = self.place_over(row.address)
                name = "-" if place is None else self.places[place].name
                sites[number] = f"{name}#{counts.get(name, 0)}"
                counts[name] = counts.get(name, 0) + 1
        return sites

    def place_at(self, address):
        """The number of the place at an address to which a row leads."""
        place = self.place_over(address)
        if place is None or self.places[place].address != address:
            raise Fault(f"a row leads to {address:08X}, where no place is")
        return place

    def callees(self, row):
        """The numbers of the functions that a call may lead to."""
        if row.kind == "call":
            return [self.places[self.place_at(row.values[0])].function]
        return [number for number, function in enumerate(self.functions) if function.referenced and function.params == row.values[0]]

    def may_lead(self, row, is_other, place):
        """Whether a row that isn't a return leads to a place, by its second target where that is meant."""
        if row.kind in ("call", "icall"):
            return not self.places[place].label and self.places[place].function in self.callees(row)
        return self.places[place].address == row.values[is_other]

    def has_cell(self, number, cell):
        """Whether a use or define is of this cell, or of its array."""
        first, *length = self.rows[number].values
        return first <= cell < first + (length or [1])[0]

    def falls(self, source, target):
        """The arrows from place to place up to the target, in the order of addresses."""
        return [Arrow("fall", place, place + 1) for place in range(source, target)]

    def _falls_on(self, place):
        """Whether the code of a place goes on into the next one."""
        last = self.places[place + 1].address - WORD
        number = self.row_over(last)
        if number < len(self.rows) and self.rows[number].address <= last:
            return self.rows[number].kind not in LEAVES
        word = self.code[(last - CODE) // WORD]
        return word != HALT and word & BREAK_MASK != BREAK

    def _arrows(self):
        """The arrows of the map, each once."""
        if any(self.place_over(row.address) is None for row in self.rows):
            raise Fault("one of its rows lies in no function")
        if any(not CODE <= place.address < CODE + WORD * len(self.code) for place in self.places):
            raise Fault("one of its places lies outside its code")
        if len(self.places) > MOST_PLACES:
            raise Fault(f"it has {len(self.places)} functions and blocks, and a picture {MOST_PLACES} at most")
        arrows = {Arrow("fall", place, place + 1): None for place in range(len(self.places) - 1) if self._falls_on(place)}
        returns = {}
        for row in self.rows:
            if row.kind == "ret":
                place = self.place_over(row.address)
                returns.setdefault(self.places[place].function, []).append(place)
        entries = [self.place_named[function.name] for function in self.functions]
        for row in self.rows:
            source = self.place_over(row.address)
            if row.kind == "jump":
                arrows[Arrow("jump", source, self.place_at(row.values[0]))] = None
            elif row.kind == "branch":
                arrows.update({Arrow(bit, source, self.place_at(to)): None for bit, to in zip("10", row.values)})
            elif row.kind in ("call", "icall"):
                for number in self.callees(row):
                    arrows[Arrow(row.kind, source, entries[number])] = None
                    arrows.update({Arrow("ret", place, source): None for place in returns.get(number, [])})
            if len(arrows) > MOST_ARROWS:
                raise Fault(f"it has more than {MOST_ARROWS} arrows, and a picture so many at most")
        return arrows
