"""The text of a picture, for Graphviz's `dot`: a cluster for each function, a node for each place, and the arrows between them."""

from image import Arrow

FONT = "Helvetica,Arial,sans-serif"
INK, PALE, GREY, RED, FRAME = "#1c2733", "#8794a2", "#5b6875", "#c8102e", "#c9d2dc"
ON_PATH, OFF_PATH, HURT = "#dcebfb", "#ffffff", "#fde3e6"
# Of each kind: the colour where it was taken, the line's style, the head, and its word in the legend.
KINDS = {
    "jump": ("#1f5fa8", "solid", "normal"),
    "1": ("#1f5fa8", "solid", "normal"),
    "0": ("#1f5fa8", "solid", "normal"),
    "fall": ("#1f5fa8", "solid", "vee"),
    "call": ("#1b7f4b", "dashed", "normal"),
    "icall": ("#1b7f4b", "dotted", "normal"),
    "ret": ("#7a4fa3", "dashed", "empty"),
}
LEGEND = "solid: jump, branch 1 or 0; dashed: call, and return with an empty head; dotted: indirect call"
LEGEND_OF_PATHS = "thick: taken, so many times; red: what the map or the last definition doesn't allow"
TIMES, SPACE = "\N{MULTIPLICATION SIGN}", "\N{NO-BREAK SPACE}"
MOST_CELLS = 4


def attributes(**values):
    return "[" + " ".join(f"{name}={value if value.startswith('<') else quoted(value)}" for name, value in values.items()) + "]"


def quoted(text):
    return '"' + text + '"'


def small(text, colour):
    return f'<font point-size="10" color="{colour}">{text}</font>'


def cells_text(rows):
    """The cells of some rows, an array as its first and last one."""
    cells = sorted({(row.values[0], row.values[0] + (row.values[1] if len(row.values) > 1 else 1) - 1) for row in rows})
    texts = [str(first) if first == last else f"{first}..{last}" for first, last in cells]
    return ", ".join(texts[:MOST_CELLS] + ["..."] * (len(texts) > MOST_CELLS))


class Picture:
    def __init__(self, image, counts=None):
        self.image, self.counts = image, counts
        self.rows_of = {}
        for number, row in enumerate(image.rows):
            self.rows_of.setdefault(image.place_over(row.address), []).append(number)
        self.on_path = set()
        if counts:
            self.on_path = {place for arrow in counts.arrows for place in (arrow.source, arrow.target)}
            self.on_path |= {image.place_over(image.rows[row].address) for row in (*counts.begun, *counts.ended)}
            self.on_path |= {image.place_over(address) for stray in counts.strays for address in stray}

    def lines(self):
        yield "digraph {"
        yield "graph " + attributes(
            label=self._title(), labelloc="t", fontname=FONT, fontsize="15", fontcolor=INK, bgcolor="white", ranksep="0.34", nodesep="0.3", pad="0.15"
        )
        yield "node " + attributes(
            shape="box", style="rounded,filled", fontname=FONT, fontsize="12", fontcolor=INK, color=PALE, margin="0.1,0.05", height="0.3", width="0.5"
        )
        yield "edge " + attributes(fontname=FONT, fontsize="11", arrowsize="0.7")
        for number, function in enumerate(self.image.functions):
            yield from self._cluster(number, function)
        yield from self._arrows()
        if self.counts:
            yield from self._strays()
        yield "}"

    def _title(self):
        image = self.image
        legend = [LEGEND] + [LEGEND_OF_PATHS] * bool(self.counts and self.counts.have_a_path)
        title = self.counts.title if self.counts else f"an image of {len(image.functions)} functions and {len(image.places) - len(image.functions)} blocks"
        return f"<<b>{title}</b><br/>{'<br/>'.join(small(line, GREY) for line in legend)}<br/> >"

    def _cluster(self, number, function):
        yield f"subgraph cluster_{number} {{"
        yield "graph " + attributes(
            label=f"<<b>{function.name}</b>>", labeljust="l", fontsize="12", style="rounded", color=FRAME, bgcolor="#f7f9fb", margin="10"
        )
        for place in range(len(self.image.places)):
            if self.image.places[place].function == number:
                yield self._node(place)
        yield "}"

    def _node(self, place):
        """A place: an entry that has nothing to be said of it is a dot."""
        is_taken, lines, is_hurt = place in self.on_path, [], False
        if self.image.places[place].label:
            lines.append(self.image.places[place].label)
        rows = [(number, self.image.rows[number]) for number in self.rows_of.get(place, [])]
        lines += [self._mark(number, row) for number, row in rows if row.kind in ("begin", "end")]
        for word, kinds in (("uses", ("use", "useat")), ("defines", ("def", "defat"))):
            of_kind = [row for _, row in rows if row.kind in kinds]
            lines += [small(f"{word} {cells_text(of_kind)}", GREY)] if of_kind else []
        for text in self._hurts(rows):
            lines.append(small(f"<b>{text}</b>", RED))
            is_hurt = True
        colour = RED if is_hurt else KINDS["jump"][0] if is_taken else PALE
        if not lines:
            return f"p{place} " + attributes(label="", shape="circle", width="0.13", height="0.13", style="filled", fillcolor=colour, color=colour)
        fill = HURT if is_hurt else ON_PATH if is_taken else OFF_PATH
        return f"p{place} " + attributes(
            label=f"<{'<br/>'.join(lines)}>", fillcolor=fill, color=colour, penwidth="2" if is_hurt else "1.4" if is_taken else "1"
        )

    def _mark(self, number, row):
        """A begin or an end, with how often it was passed."""
        counted = self.counts and (self.counts.begun[number] or self.counts.ended[number])
        return f"<i>{row.kind} {row.values[0]}</i>" + (f" <b>{TIMES}{counted}</b>" if counted else "")

    def _hurts(self, rows):
        """What was found at uses that weren't sound, or what the verdict tells of their cell."""
        counts = self.counts
        for number, row in rows if counts else []:
            if number in counts.unsound:
                count, (cell, found, defined) = counts.unsound[number]
                yield f"cell {cell}: {found} found, {defined} defined {TIMES}{count}"
            elif row.kind in ("use", "useat") and not counts.have_a_path:
                for cell, (expected, found) in counts.told.items():
                    if self.image.has_cell(number, cell):
                        yield f"cell {cell}: {found} found, {expected} expected, here or elsewhere"

    def _arrows(self):
        arrows = dict(self.image.arrows)
        taken = self.counts.arrows if self.counts else {}
        arrows.update(dict.fromkeys(taken))
        for arrow in sorted(arrows):
            yield self._arrow(arrow, taken.get(arrow, 0), arrow in self.image.arrows)

    def _arrow(self, arrow, count, is_of_map):
        """An arrow. A return is drawn backwards, from the call's block down to it, so that the layout goes from callers down to callees."""
        colour, style, head = KINDS[arrow.kind]
        words = [arrow.kind] if arrow.kind in "01" else []
        shown = {"style": style, "penwidth": "1.6" if style == "dotted" else "1"}
        if count:
            words.append(f"<b>{TIMES}{count}</b>")
            shown["penwidth"] = "2.6"
        elif self.counts and self.counts.have_a_path:
            colour = PALE
        if not is_of_map:
            colour = RED
        shown |= {"color": colour, "fontcolor": colour}
        if words:
            shown["label"] = f"<{SPACE}{' '.join(words)}{SPACE}>"
        if arrow.kind == "ret":
            return f"p{arrow.target} -> p{arrow.source} " + attributes(dir="back", arrowtail=head, **shown)
        return f"p{arrow.source} -> p{arrow.target} " + attributes(arrowhead=head, **shown)

    def _strays(self):
        """Each stray, from the place of the one address to that of the other, or to a node outside all functions."""
        for stray, count in sorted(self.counts.strays.items()):
            target = self.image.place_over(stray.target)
            if target is None:
                yield f"a{stray.target:X} " + attributes(label=f"{stray.target:08X}", color=RED, fontcolor=RED)
            yield f"p{self.image.place_over(stray.source)} -> " + (f"a{stray.target:X} " if target is None else f"p{target} ") + attributes(
                label=f'<<table border="0" cellborder="0" cellpadding="6"><tr><td><b>stray {TIMES}{count}</b><br/>{stray.source:08X}<br/>to {stray.target:08X}</td></tr></table>>',
                color=RED,
                fontcolor=RED,
                penwidth="3",
            )
