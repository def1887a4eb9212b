"""layout.svg: the volume of document 01's example, section "Volume layout", and one whose last run is short.

Below, a tag of document 02, order 4, that lies across two sectors.
"""

from svg import KINDS, LEFT, RIGHT, RULE, Drawing
from volume import (
    CROSSING, EXAMPLE, LONGER, METADATA, SECTOR, SHOWN, SHOWN_CROSSING, SHOWN_LONGER, SUPERBLOCK, SUPERBLOCK_BYTES,
    number, place_sum, superblock_fields, tag_sum,
)

CELL = 34  # the height of a row of sectors or tags
BYTE = 22  # the width of a byte
OTHERS, GAP = 24, 40  # the widths of tags left out, and of the room between two sectors


def volume_parts(g):
    """Kind, first sector and size of each part of the volume, in order."""
    sections, runs = range(g.journal, g.B, g.M), range(0, g.P, g.N)
    return [
        ("superblock", g.r, SUPERBLOCK),
        *(part for at in sections for part in (("metadata", at, METADATA), ("journal", at + METADATA, g.M - METADATA))),
        *(part for s in runs for part in (("tag", g.run(s), g.A), ("data", g.place(s), min(g.N, g.P - s)))),
    ]


def draw_volume(drawing, g, x, y, width, height):
    """The volume to scale. Answers where a sector begins."""

    def at(sector):
        return x + width * sector / g.sectors

    for kind, first, count in volume_parts(g):
        drawing.box(at(first), y, at(first + count) - at(first), height, kind)
    return at


def draw_whole(drawing, g, y):
    """The volume, with each part's name and size. Answers where a sector begins."""
    at = draw_volume(drawing, g, LEFT, y, RIGHT - LEFT, 40)
    journal = f"journal: S × M = {g.S} × {g.M} sectors, {METADATA} of metadata and {g.M - METADATA} of data"
    drawing.text((at(g.journal) + at(g.B)) / 2, y - 8, journal, "strong", "middle")
    drawing.text(at(g.r), y - 8, "superblock", "strong")
    drawing.text(at(g.B + g.A / 2), y - 8, "tag area", "strong", "middle")
    drawing.text(at(g.place(0) + g.N / 2), y - 8, "data", "strong", "middle")
    for kind, first, size in volume_parts(g):
        drawing.text(at(first + size / 2), y + 24, str(size), "label", "middle", colour=KINDS[kind][1])
    return at


def draw_borders(drawing, g, at, y):
    """The address at each border, and the reserved sectors' place."""
    for sector in (g.r, g.journal, g.place(0), g.sectors):
        drawing.mark(at(sector), y, number(sector))
    drawing.mark(at(g.B), y, f"B = {g.B}")
    drawing.text(LEFT, y + 38, f"Reserved, before the superblock: {g.r} sectors (r {g.r})", "small")


def draw_run(drawing, g, s, x, y, width):
    """The sectors of the run that has logical sector s. It and its tag's sector are marked."""
    first, end = s // g.N * g.N, min(g.P, (s // g.N + 1) * g.N)
    start, count = g.run(s), g.A + end - first
    tags = -(-g.N * g.T // SECTOR)
    cell = width / count
    drawing.box(x, y, tags * cell, CELL, "tag")
    drawing.box(x + tags * cell, y, (g.A - tags) * cell, CELL, "zero")
    drawing.box(x + g.A * cell, y, (end - first) * cell, CELL, "data")
    drawing.grid(x, y, width, CELL, count)
    inside = ["tags"] * tags + [""] * (g.A - tags) + list(map(str, range(first, end)))
    for place, words in enumerate(inside):
        drawing.text(x + (place + 0.5) * cell, y + 21, words, "cell", "middle", cell - 2)
        drawing.text(x + (place + 0.5) * cell, y + CELL + 15, str(start + place), "small", "middle", cell)
    drawing.outline(x + (g.place(s) - start) * cell, y, cell, CELL)
    drawing.outline(x + (g.tag_sector(s) - start) * cell, y, cell, CELL)


def draw_tags(drawing, g, s, y):
    """The bytes of the sector with the tag of s."""
    count = SECTOR // g.T
    cell, start = (RIGHT - LEFT) / count, g.tag_sector(s) * SECTOR
    at = LEFT + s % g.N * cell
    drawing.box(LEFT, y, RIGHT - LEFT, CELL, "tag")
    drawing.grid(LEFT, y, RIGHT - LEFT, CELL, count)
    for place in range(count):
        drawing.text(LEFT + (place + 0.5) * cell, y + 21, f"tag {place}", "label", "middle", cell)
    drawing.outline(at, y, cell, CELL)
    drawing.mark(LEFT, y + CELL, f"byte {number(start)}", "start")
    drawing.line([(at, y + CELL), (at, y + CELL + 5)])
    drawing.text(at, y + CELL + 17, f"The tag of sector {s} starts at byte {tag_sum(g, s)}")
    drawing.mark(RIGHT, y + CELL, number(start + SECTOR), "end")


def draw_field(drawing, x, y, stored):
    """Bytes as they are stored, in hexadecimal."""
    drawing.box(x, y, BYTE * len(stored), 20, "plain")
    drawing.grid(x, y, BYTE * len(stored), 20, len(stored))
    for place, byte in enumerate(stored):
        drawing.text(x + BYTE * (place + 0.5), y + 14, f"{byte:02x}", "code", "middle", BYTE)


def draw_superblock(drawing, g, x, y):
    """The superblock's fields: first byte, bytes as stored, name and value."""
    places, bytes_at, names, values = x + 26, x + 38, x + 226, x + 392
    drawing.text(x, y, "The superblock, to the byte", "heading")
    drawing.text(places, y + 24, "byte", "small", "end")
    drawing.text(bytes_at, y + 24, "as stored", "small")
    drawing.text(names, y + 24, "field", "small")
    drawing.text(values, y + 24, "value here", "small")
    fields = superblock_fields(g)
    for row, (first, stored, name, value) in enumerate(fields):
        top = y + 32 + 24 * row
        drawing.text(places, top + 15, number(first), "small", "end")
        draw_field(drawing, bytes_at, top, stored)
        drawing.text(names, top + 15, name, "label", room=values - names)
        drawing.text(values, top + 15, value, "label", room=80)
    end, top = first + len(stored), y + 32 + 24 * len(fields)
    drawing.text(places, top + 15, number(end), "small", "end")
    drawing.box(bytes_at, top, BYTE * 8, 20, "zero")
    drawing.text(names, top + 15, f"{number(SUPERBLOCK_BYTES - end)} bytes, zero, to {number(SUPERBLOCK_BYTES)}")


def draw_longer(drawing, g, s, x, y):
    """The volume whose last run is short, with that run's sectors."""
    drawing.text(x, y, f"P {g.P} instead: a second, short run", "heading")
    drawing.text(x, y + 24, f"{g.sectors} sectors: the last run has only {g.P % g.N} data sectors", "note")
    at = draw_volume(drawing, g, x, y + 40, RIGHT - x, 24)
    drawing.zoom((at(g.run(s)), RIGHT, y + 88), (x, RIGHT, y + 112), f"run {s // g.N}")
    for sector in (g.r, g.journal, g.B, g.run(s), g.sectors):
        drawing.mark(at(sector), y + 64, number(sector))
    draw_run(drawing, g, s, x, y + 112, RIGHT - x)
    drawing.text(x, y + 192, f"Sector {s} lies at {place_sum(g, s)}")
    drawing.text(x, y + 212, "Its tag starts at byte")
    drawing.text(x, y + 230, tag_sum(g, s))


def bytes_before(g, s):
    """How many bytes of the tag of s lie before the end of its first sector."""
    return SECTOR - g.tag_offset(s) % SECTOR


def draw_end(drawing, g, s, x, y, byte):
    """The end of a sector: the tag before that of s, and the first bytes of that of s. Answers where the sector ends."""
    start, before = g.tag_offset(s), bytes_before(g, s)
    tag = x + OTHERS + g.T * byte
    end = tag + before * byte
    drawing.field(x, y, OTHERS, CELL, "tag", "…")
    drawing.field(x + OTHERS, y, g.T * byte, CELL, "tag", f"tag {s - 1}")
    drawing.field(tag, y, before * byte, CELL, "tag", str(s), style="cell")
    drawing.outline(tag, y, before * byte, CELL)
    drawing.mark(x + OTHERS, y + CELL, f"byte {start - g.T}", "start")
    drawing.mark(tag, y + CELL, str(start), "end")
    drawing.mark(end, y + CELL, str(start + before), "start")
    return end


def draw_beginning(drawing, g, s, x, y, byte):
    """The beginning of the next sector: the other bytes of the tag of s, and the tag behind it."""
    start, rest = g.tag_offset(s + 1), g.T - bytes_before(g, s)
    behind = x + rest * byte
    drawing.field(x, y, rest * byte, CELL, "tag", f"tag {s}")
    drawing.field(behind, y, g.T * byte, CELL, "tag", f"tag {s + 1}")
    drawing.field(behind + g.T * byte, y, OTHERS, CELL, "tag", "…")
    drawing.outline(x, y, rest * byte, CELL)
    drawing.mark(x, y + CELL, str(start - rest), "start")
    drawing.mark(behind, y + CELL, str(start))
    drawing.mark(behind + g.T * byte, y + CELL, str(start + g.T))


def draw_two_sectors(drawing, g, s, y):
    """The two sectors with the tag of s, where they meet: the tag and its neighbours to scale."""
    first, second = g.entry_stores(s)[1:]
    start = (first - g.run(s)) * SECTOR
    before, byte = bytes_before(g, s), (RIGHT - LEFT - 2 * OTHERS - GAP) / (3 * g.T)
    x = draw_end(drawing, g, s, LEFT, y, byte) + GAP
    draw_beginning(drawing, g, s, x, y, byte)
    for left, sector, at in ((LEFT, first, start), (x, second, start + SECTOR)):
        drawing.lead(left, y - 8, f"Sector {sector}.", f"bytes {at} to {number(at + SECTOR - 1)} of the tag area")
    drawing.text(LEFT, y + 76, f"Stored first, with only the tag's {before} bytes replaced")
    drawing.text(x, y + 76, f"Stored next, with only the tag's other {g.T - before} bytes replaced")


def draw_crossing(drawing, g, s, y):
    """A tag across two sectors, and how it is written back."""
    data, first, second = g.entry_stores(s)
    before = bytes_before(g, s)
    start = f"The tag of sector {s} starts at byte {s % g.N} × {g.T} = {g.tag_offset(s)} of the tag area"
    lies = f"{before} of its bytes lie in sector {first}, the other {g.T - before} in sector {second}"
    rule = f"The tag of s lies across two sectors if ((s mod N) × T mod {SECTOR}) + T > {SECTOR}"
    drawing.text(LEFT, y, f"T {g.T}, N {g.N}, P {g.P} instead: a tag across two sectors", "heading")
    drawing.text(LEFT, y + 24, f"{start}: {lies}", "note")
    draw_two_sectors(drawing, g, s, y + 60)
    drawing.text(LEFT, y + 164, f"{rule}. Its entry then takes three stores instead of two:", "note")
    drawing.text(LEFT, y + 182, f"its data, then the lower tag sector, then the next. Here these are {data}, {first} and {second}.", "note")


def described(g, s):
    return f"logical sector {s} lies at {g.place(s)}, its tag at byte {number(g.tag_byte(s))}."


def described_crossing(g, s):
    data, first, second = g.entry_stores(s)
    before = bytes_before(g, s)
    return (
        f"A third volume, with T {g.T}, N {g.N} and P {g.P}, has the tag of logical sector {s} across two sectors: its first {before} "
        f"bytes are the last of sector {first}, its other {g.T - before} the first of sector {second}. Its entry is written back by "
        f"three stores, to {data}, {first} and {second}, each tag sector with only that tag's bytes replaced."
    )


def description(g):
    return (
        f"A volume of {g.sectors} sectors, to scale. Superblock: sectors {g.r} to {g.journal - 1}. Journal: {g.journal} to {g.B - 1}. "
        f"Tag area: {g.B} to {g.place(0) - 1}. Data: {g.place(0)} to {g.sectors - 1}. There, {described(g, SHOWN)} The superblock's "
        f"fields are shown to the byte. A second volume, with P {LONGER.P}, has {LONGER.sectors} sectors and a second, short run. There, "
        f"{described(LONGER, SHOWN_LONGER)} {described_crossing(CROSSING, SHOWN_CROSSING)}"
    )


def draw_runs(drawing, g, s, y):
    """The first run, and the sector with its tags."""
    cell = (RIGHT - LEFT) / (g.A + g.N)
    drawing.zoom((LEFT, LEFT + cell, y + 66), (LEFT, RIGHT, y + 104))
    drawing.lead(LEFT, y, "Tag area.", f"A = {g.A} sectors (hatched: zero)")
    drawing.lead(LEFT + g.A * cell, y, "Data.", f"N = {g.N} sectors. In a cell is the logical sector, below it the address")
    draw_run(drawing, g, s, LEFT, y + 8, RIGHT - LEFT)
    drawing.text(LEFT + (g.A + s) * cell, y + 77, f"Sector {s} lies at {place_sum(g, s)}")
    drawing.lead(LEFT, y + 124, f"Sector {g.tag_sector(s)}.", f"{SECTOR // g.T} tags of {g.T} bytes")
    draw_tags(drawing, g, s, y + 132)


def draw():
    g = EXAMPLE
    drawing = Drawing("The volume, sector by sector", description(g), 1016)
    parameters = f"r {g.r}, tag bytes T {g.T}, run length N {g.N}, sections S {g.S}, provided sectors P {g.P}"
    drawing.head(f"{g.sectors} sectors of {SECTOR} bytes, to scale: {parameters}")
    at = draw_whole(drawing, g, 114)
    drawing.zoom((at(g.B), RIGHT, 178), (LEFT, RIGHT, 212), f"run {SHOWN // g.N}")
    draw_borders(drawing, g, at, 154)
    draw_runs(drawing, g, SHOWN, 232)
    place, tag = "B + (s div N) × (A + N) + A + (s mod N)", f"(B + (s div N) × (A + N)) × {SECTOR} + (s mod N) × T"
    drawing.text(LEFT, 446, f"Sector s lies at {place}, its tag at byte {tag}.", "note")
    drawing.line([(LEFT, 470), (RIGHT, 470)], RULE)
    draw_superblock(drawing, g, LEFT, 502)
    draw_longer(drawing, LONGER, SHOWN_LONGER, 540, 502)
    drawing.line([(LEFT, 774), (RIGHT, 774)], RULE)
    draw_crossing(drawing, CROSSING, SHOWN_CROSSING, 806)
    return drawing
