"""timeline.svg: a batch of one write from write to filling, and what a cut at each point leaves. Document 01, "Working a volume".

The volume is fresh from format, so the batch gets the first commit id.
"""

from svg import INK, LEFT, MUTED, RIGHT, RULE, Drawing
from volume import EXAMPLE, FIRST_ID, METADATA, SHOWN

START = 136  # where the timeline begins, right of the rows' names
CALL, TICK = 64, 5.5  # the widths of a call, and of a step while committing
BAR = 30  # the height of a row
COLUMNS = (LEFT + 30, LEFT + 174, LEFT + 464, LEFT + 586, LEFT + 790)  # of the table


class Times:
    """Where on the timeline each call ends."""

    def __init__(self, g):
        self.write = START + CALL
        self.flush = self.write + CALL
        self.commits = [self.flush + TICK * made for made in range(g.M + 1)]
        self.acknowledged = self.commits[-1]
        self.data = self.acknowledged + CALL
        self.filling = self.data + CALL


def row_name(drawing, y, words):
    drawing.text(LEFT, y + BAR / 2 + 4, words, "note", room=START - LEFT)


def draw_calls(drawing, g, times, y):
    row_name(drawing, y, "call")
    drawing.field(START, y, CALL, BAR, "plain", f"write {SHOWN}")
    drawing.field(times.write, y, CALL, BAR, "plain", "flush")
    commit = f"{g.M} steps: the sectors of the journal section, in order"
    drawing.field(times.flush, y, times.acknowledged - times.flush, BAR, "plain", commit)
    drawing.field(times.acknowledged, y, CALL, BAR, "plain", "step")
    drawing.field(times.data, y, CALL, BAR, "plain", "step")


def draw_stores(drawing, g, times, y):
    """The stores, the commit's to scale; below each its number and its sector."""
    drawing.box(times.flush, y, TICK * METADATA, BAR, "metadata")
    drawing.box(times.commits[METADATA], y, TICK * (g.M - METADATA), BAR, "journal")
    drawing.grid(times.flush, y, TICK * g.M, BAR, g.M)
    drawing.field(times.acknowledged, y, CALL, BAR, "data", "data")
    drawing.field(times.data, y, CALL, BAR, "tag", "tag")
    row_name(drawing, y, "store")
    row_name(drawing, y + 25, "number")
    row_name(drawing, y + 42, "sector")
    middle = (times.flush + times.acknowledged) / 2
    drawing.text(middle, y + BAR + 14, "…", "label", "middle")
    drawing.text(middle, y + BAR + 31, "…", "label", "middle")
    ends = (times.commits[1] + 4, times.acknowledged - 14, times.data - CALL / 2, times.filling - CALL / 2)
    stores = list(enumerate(g.stores([SHOWN]), 1))
    for x, (store, sector) in zip(ends, stores[:1] + stores[g.M - 1:]):
        drawing.text(x, y + BAR + 14, str(store), "label", "middle")
        drawing.text(x, y + BAR + 31, str(sector), "label", "middle")


def draw_answers(drawing, times, y):
    row_name(drawing, y, "the step says")
    drawing.text(times.acknowledged - 6, y + 19, "acknowledged", "strong", "end")
    drawing.text(times.filling - 6, y + 19, "filling", "strong", "end")


def draw_phases(drawing, g, times, y):
    row_name(drawing, y, "phase")
    drawing.field(START, y, times.flush - START, BAR, "quiet", "filling")
    drawing.field(times.flush, y, times.acknowledged - times.flush, BAR, "plain", f"committing at sector 0 to {g.M - 1}")
    drawing.field(times.acknowledged, y, 2 * CALL, BAR, "plain", "writing back")
    drawing.field(times.filling, y, RIGHT - times.filling, BAR, "quiet", "filling", style="cell")


def draw_contents(drawing, times, y):
    row_name(drawing, y, "a cut leaves")
    drawing.field(START, y, times.acknowledged - START, BAR, "old", f"nothing of the batch: sector {SHOWN} is old")
    drawing.field(times.acknowledged, y, RIGHT - times.acknowledged, BAR, "new", "all of it: new", style="strong")


def draw_cuts(drawing, times, top, y):
    """The cuts' letters: on a line down from the calls, or below a bracket from the first such place to the last."""
    for letter, x in (("c", times.acknowledged), ("d", times.data), ("e", times.filling)):
        drawing.line([(x, top - 6), (x, y - 10)], INK if letter == "c" else MUTED, 2 if letter == "c" else 1, dashed=True)
        drawing.letter(x, y, letter)
    draw_bracket(drawing, times.write, times.flush, y, "a")
    draw_bracket(drawing, times.commits[1], times.commits[-2], y, "b")


def draw_bracket(drawing, first, last, y, letter):
    drawing.line([(first, y - 26), (first, y - 18), (last, y - 18), (last, y - 26)], MUTED)
    drawing.line([((first + last) / 2, y - 18), ((first + last) / 2, y - 10)], MUTED)
    drawing.letter((first + last) / 2, y, letter)


def draw_recovery(drawing, g, y):
    """The recovery after c, d or e, and a cut within it."""
    data, tag = g.stores([SHOWN])[g.M:]
    come = g.to_come([SHOWN], g.M)
    opened = START + 2 * CALL
    drawing.text(LEFT, y + 12, "recovery", "note")
    drawing.text(LEFT, y + 26, "after c, d, e", "note")
    drawing.field(START, y, 2 * CALL, BAR, "plain", f"open: {come} to come")
    drawing.field(opened, y, CALL, BAR, "data", f"data {data}")
    drawing.field(opened + CALL, y, CALL, BAR, "tag", f"tag {tag}")
    drawing.field(opened + 2 * CALL, y, CALL, BAR, "quiet", "filling")
    for x in (opened, opened + CALL):
        drawing.line([(x, y - 6), (x, y + BAR + 10)], MUTED, dashed=True)
    turn = y + BAR + 20
    drawing.line([(opened + CALL, turn), (START + CALL, turn), (START + CALL, y + BAR + 1)], arrow=True)
    drawing.letter(opened, turn, "f")
    drawing.letter(opened + CALL, turn, "f")
    beside = opened + 3 * CALL + 28
    drawing.text(beside, y + 6, "Recovery stores nothing to the journal. After a cut within it,")
    drawing.text(beside, y + 24, f"open reports {come} again, and it begins anew: the same bytes to")
    drawing.text(beside, y + 42, "the same sectors, so the end is the same.")


def table_rows(g):
    """Each cut's letter, and what the table's columns say of it."""
    last = g.commit()[-1]
    data, tag = g.stores([SHOWN])[g.M:]
    none, some = (f"{g.to_come([SHOWN], made)} stores to come" for made in (g.M - 1, g.M))
    torn, fresh = f"a torn section: sector {last} lacks its id {FIRST_ID}", f"nothing; the next id is {FIRST_ID + 1}"
    return [
        ("a", "before the first store", "no store, flushed or not: the batch is lost", none, "nothing", "old"),
        ("b", f"after 1 to {g.M - 1} stores", torn, none, fresh, "old"),
        ("c", f"after store {g.M}", f"the section is whole; {data} and {tag} are old", some, f"{data}, then {tag}", "new"),
        ("d", f"after store {g.M + 1}", f"{data} is new, its tag in {tag} is old", some, f"{data} again, then {tag}", "new"),
        ("e", f"after store {g.M + 2}", "all is in place; the section is still whole", some, "both again, same bytes", "new"),
        ("f", "within a recovery", "the section is still whole", some, "both, from the first", "new"),
    ]


def draw_table(drawing, g, y):
    heads = ("cut", "what is on the volume", "open reports", "recovery stores", f"sector {SHOWN} then")
    for x, words in zip(COLUMNS, heads):
        drawing.text(x, y, words, "strong")
    draw_rows(drawing, table_rows(g), y + 10)


def draw_rows(drawing, rows, y):
    for row, cells in enumerate(rows):
        draw_row(drawing, cells, y + 28 * row)


def draw_row(drawing, cells, y):
    letter, *words, content = cells
    drawing.line([(LEFT, y), (RIGHT, y)], RULE)
    drawing.letter(LEFT + 10, y + 14, letter)
    for x, end, word in zip(COLUMNS, COLUMNS[1:], words):
        drawing.text(x, y + 18, word, room=end - x - 6)
    drawing.field(COLUMNS[-1], y + 4, RIGHT - COLUMNS[-1], 20, content, content)


def description(g):
    data, tag = g.stores([SHOWN])[g.M:]
    come = g.to_come([SHOWN], g.M)
    return (
        f"A write to sector {SHOWN} and a flush, then {g.M + 2} steps of one store each: stores 1 to {g.M} to sectors "
        f"{g.commit()[0]} to {g.commit()[-1]}, the last of which acknowledges the batch; store {g.M + 1} to {data} and store {g.M + 2} "
        f"to {tag}, after which the volume is filling. A cut before the first store, or after 1 to {g.M - 1} stores, leaves nothing of "
        f"the batch: open reports no store to come. A cut after {g.M}, {g.M + 1} or {g.M + 2} stores leaves all of it: open reports "
        f"{come} stores to come, and recovery stores {data}, then {tag}. After a cut within that recovery, open reports {come} again "
        "and recovery begins anew."
    )


def draw():
    g = EXAMPLE
    times = Times(g)
    drawing = Drawing(f"One write to sector {SHOWN}, and a power cut at any point", description(g), 674)
    drawing.head("On the volume of layout.svg, fresh from format. A cut keeps the stores made, and loses the state and staging.")
    draw_cuts(drawing, times, 98, 336)
    draw_calls(drawing, g, times, 98)
    draw_stores(drawing, g, times, 138)
    draw_answers(drawing, times, 197)
    draw_phases(drawing, g, times, 230)
    draw_contents(drawing, times, 270)
    draw_recovery(drawing, g, 380)
    draw_table(drawing, g, 478)
    return drawing
