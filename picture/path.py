"""Follows paths, as `verify`, `attest`, `run`, `trace` and `policy` put them, on the map of an image, and counts what they take."""

import re
from collections import Counter

from image import Arrow, Fault, Stray

LONGEST = 512
SITE, PLACE, NUMBER = r"[\w.]+#\d+", r"[\w.]+", r"(-?\d+)"
USES = ("use", "useat")
EDGE = re.compile(
    f"jump {SITE} {PLACE}|branch {SITE} [01] {PLACE}|i?call {SITE} {PLACE}|ret {SITE} {SITE}"
    r"|end [1-9]\d{0,4}|stray [0-9A-F]{8,16} [0-9A-F]{8,16}",
    re.ASCII,
)
VERDICT = re.compile(r"accept(?: \d+)?|refuse [\w -]+", re.ASCII)
CRITICAL = re.compile(rf"refuse critical (\d+) {NUMBER} {NUMBER}", re.ASCII)
USE = re.compile(rf"use (\d+) {NUMBER} {NUMBER}", re.ASCII)
END = re.compile(r"ended (?:halted|steps|(?:trap|fault|stopped) \w+(?: [0-9A-F]+)?)", re.ASCII)
OTHER = re.compile(rf"out {NUMBER}|blob [0-9a-f]*|same", re.ASCII)
APART = re.compile(r"apart [0-9a-f]+ [0-9a-f]+")
POLICY = re.compile(r"policy (?:holds|breaks \d+ \d+)", re.ASCII)
NOWHERE = -1
MOST_VERDICTS = 4


class Step:
    """What one line of a path says: at which row it stands, which arrow it takes, and which row comes next."""

    __slots__ = ("row", "arrow", "landing", "next", "passed", "count")

    def __init__(self, row, arrow, landing, image):
        self.row, self.arrow, self.landing, self.count = row, arrow, landing, 0
        self.next, self.passed = (NOWHERE, ()) if image.place_over(landing) is None else image.stop_from(landing)


class Counts:
    """What the paths of a file take and find, and what is said of them."""

    def __init__(self):
        self.arrows = Counter()
        self.strays = Counter()  # by the addresses from and to
        self.begun, self.ended = Counter(), Counter()  # by row
        self.unsound = {}  # by row: how often, and the cell, the first value found and the one defined
        self.told = {}  # by cell: the value expected and the one found, where the verdict alone tells of it
        self.verdicts, self.windows, self.accepted = [], 0, 0
        self.end, self.notes = "", []

    @property
    def have_a_path(self):
        return bool(self.ended)

    @property
    def title(self):
        """The verdicts, or without any the end of the run, and what else is said."""
        said = self.verdicts or [self.end]
        if self.windows > MOST_VERDICTS:
            said = [f"{self.windows} windows: {self.accepted} accepted, {self.windows - self.accepted} refused"]
        return "; ".join(part for part in said + self.notes if part)


def text_of(line):
    return line.decode("ascii", "replace").removesuffix("\n")


def lines_of(file, place=0):
    """Each line of a file from a place on, with its own place. Of a blob's line, which may be long, the front alone."""
    file.seek(place)
    while line := file.readline(LONGEST):
        length = len(line)
        while line[:5] == b"blob " and not line.endswith(b"\n") and (more := file.readline(LONGEST)):
            length += len(more)
            line = line[:5] + more[-1:]
        yield place, line
        place += length


class Paths:
    """The paths of a file: the text of each edge is parsed once, and counted where it comes again."""

    def __init__(self, image, file, again):
        self.image, self.file, self.again = image, file, again
        self.steps, self.counts = {}, Counts()
        self.begun, self.first = None, None  # the place in the file where the last path begins, and its Begin row
        self.firsts = {}  # the row that comes first behind a Begin row, and that Begin row
        for number, row in enumerate(image.rows):
            if row.kind == "begin":
                self.firsts[image.stop_from(row.end)[0]] = number

    def read(self):
        """Counts all paths of the file. `at` is the row where a path is, or None outside a path."""
        steps, at, number, uses = self.steps, None, 0, None
        for number, (place, line) in enumerate(lines_of(self.file), 1):
            step = steps.get(line) or self._step(line, number)
            if step or line.startswith(b"end "):
                if at is None:
                    at, uses = self._begin(step, line, number), None
                    self.begun = place
                if step and step.row == at:
                    step.count += 1
                    at = step.next
                elif not step and self._ends(at, line):
                    self.counts.ended[at] += 1
                    at = None
                else:
                    raise Fault(f"line {number} isn't the next edge on this image")
            elif at is not None:
                raise Fault(f"line {number} comes inside a path")
            elif line.startswith(b"use "):
                uses = uses or self._passed_uses()
                self._use(line, number, uses)
            else:
                self._other(text_of(line), number)
        if at is not None or not number:
            raise Fault("it ends inside a path" if number else "it is empty")
        self._sum()
        return self.counts

    def _begin(self, step, line, number):
        """The row at which a path begins: the first one behind a Begin row."""
        for first, begin in self.firsts.items():
            if step.row == first if step else self._ends(first, line):
                self.counts.begun[begin] += 1
                self.first = begin
                return first
        raise Fault(f"line {number} is behind no begin of this image")

    def _ends(self, row, line):
        """Whether the row is the End that a line says."""
        rows = self.image.rows
        return row < len(rows) and rows[row].kind == "end" and line == f"end {rows[row].values[0]}\n".encode()

    def _step(self, line, number):
        """The step of a line, or None where the line is no edge but an end."""
        text = text_of(line)
        if line.startswith(b"end ") or not EDGE.fullmatch(text):
            return None
        kind, *words = text.split()
        step = self._stray(*words) if kind == "stray" else self._edge(kind, *words)
        if step is None:
            raise Fault(f"line {number} is no edge of this image")
        self.steps[line] = step
        return step

    def _edge(self, kind, site, *words):
        """The step of an edge that the image has, or None."""
        image, target = self.image, words[-1]
        number = image.row_named.get(site)
        if number is None or image.rows[number].kind != kind:
            return None
        row = image.rows[number]
        if kind == "ret":
            call = image.row_named.get(target)
            if call is None or image.rows[call].kind not in ("call", "icall"):
                return None
            place, landing = image.place_over(image.rows[call].address), image.rows[call].end
        else:
            place = image.place_named.get(target)
            if place is None or not image.may_lead(row, words[0] == "0", place):
                return None
            landing = image.places[place].address
        arrow = Arrow(words[0] if kind == "branch" else kind, image.place_over(row.address), place)
        return Step(number, arrow, landing, image)

    def _stray(self, source, target):
        """The step of an edge that no row explains, from the row that made it; or None."""
        source, target = int(source, 16), int(target, 16)
        number = self.image.row_over(source)
        if number == len(self.image.rows) or self.image.rows[number].kind not in ("icall", "ret"):
            return None
        return Step(number, Stray(source, target), target, self.image)

    def _passed_uses(self):
        """The rows of the uses that the last path passes, in its order, by a second reading of it."""
        image = self.image
        passed = image.stop_from(image.rows[self.first].end)[1]
        for _, line in lines_of(self.again, self.begun):
            yield from (number for number in passed if image.rows[number].kind in USES)
            if line not in self.steps:
                return
            passed = self.steps[line].passed

    def _use(self, line, number, uses):
        """Counts a use that wasn't sound at its row. Behind a stray a use may be none of a row's: then the title says so."""
        found = USE.fullmatch(text_of(line))
        row = next(uses, None) if self.begun is not None else None
        if not found:
            raise Fault(f"line {number} is none of a path")
        cell, value, defined = found.groups()
        is_known = row is not None and self.image.has_cell(row, int(cell))
        if not is_known and not any(isinstance(step.arrow, Stray) for step in self.steps.values()):
            raise Fault(f"line {number} isn't the next use on this image")
        if value != defined and is_known:
            count, first = self.counts.unsound.get(row, (0, found.groups()))
            self.counts.unsound[row] = count + 1, first
        elif value != defined:
            self._note(f"a use of cell {cell} found {value}, not {defined}, at no row")

    def _note(self, text):
        if len(self.counts.notes) < MOST_VERDICTS:
            self.counts.notes.append(text)

    def _other(self, text, number):
        """Takes a line outside the paths."""
        counts = self.counts
        if VERDICT.fullmatch(text):
            counts.windows += 1
            counts.accepted += text.startswith("accept")
            if counts.windows <= MOST_VERDICTS:
                counts.verdicts.append(text)
            if critical := CRITICAL.fullmatch(text):
                counts.told[int(critical[1])] = critical[2], critical[3]
        elif END.fullmatch(text):
            counts.end = text
        elif POLICY.fullmatch(text):
            self._note(text)
        elif APART.fullmatch(text):
            self._note("returns apart from those of the accepted path")
        elif not OTHER.fullmatch(text):
            raise Fault(f"line {number} is none of a path")

    def _sum(self):
        """Adds up the arrows of the steps, with those from place to place where code goes on without a row."""
        image, counts = self.image, self.counts
        for step in self.steps.values():
            (counts.arrows if isinstance(step.arrow, Arrow) else counts.strays)[step.arrow] += step.count
            self._fall(step.landing, step.next, step.count)
        for row, count in counts.begun.items():
            self._fall(image.rows[row].address, image.stop_from(image.rows[row].end)[0], count)

    def _fall(self, landing, row, count):
        source = self.image.place_over(landing)
        if source is not None and 0 <= row < len(self.image.rows):
            for arrow in self.image.falls(source, self.image.place_over(self.image.rows[row].address)):
                self.counts.arrows[arrow] += count
