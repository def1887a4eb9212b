"""section.svg: document 01, "A journal section", to the byte, with one entry's 512 data bytes followed to their two places.

Below stands an entry whose tag part is rounded up, by document 02, order 4.
"""

from svg import LEFT, RIGHT, RULE, Drawing
from volume import (
    BODY, ENTRIES_END, ENTRY_SHOWN, EXAMPLE, METADATA, PADDED, SECTOR, TAG_RANGES, WORD, entry_count, entry_size,
    per_sector, section_size, section_sizes,
)

BAR, BAND = 36, 8  # the heights of a row of fields, and of the band of commit ids
COLUMN = 560  # where the metadata sector's column ends
SECOND = 600  # where the data sector's column begins
ID = 60  # the width of the last 8 bytes of a sector
BYTE = (COLUMN - LEFT) / entry_size(EXAMPLE.T)  # the width of a byte of an entry


def sector_at(tag, sector):
    """Where a sector of the section begins in the strip."""
    return LEFT + (RIGHT - LEFT) * sector / section_size(tag)


def draw_strip(drawing, tag, i, y):
    """The section's sectors to scale, each with its commit id. Those of entry i are marked."""
    count, entries, data = section_size(tag), entry_count(tag), sector_at(tag, METADATA)
    drawing.box(LEFT, y, data - LEFT, BAR, "metadata")
    drawing.box(data, y, RIGHT - data, BAR, "journal")
    drawing.box(LEFT, y + BAR, RIGHT - LEFT, BAND, "id")
    drawing.grid(LEFT, y, RIGHT - LEFT, BAR + BAND, count)
    draw_marks(drawing, y + BAR + BAND, {sector_at(tag, sector): sector for sector in (0, METADATA, count)})
    drawing.text(LEFT, y - 8, f"{METADATA} metadata sectors", "strong")
    drawing.text((data + RIGHT) / 2, y - 8, f"{entries} data sectors, one for each entry", "strong", "middle")
    drawing.text((data + RIGHT) / 2, y + BAR + 25, "the dark band: every sector ends with the commit id", "note", "middle")
    for sector in (i // per_sector(tag), METADATA + i):
        drawing.outline(sector_at(tag, sector), y, (RIGHT - LEFT) / count, BAR + BAND)


def draw_metadata(drawing, tag, i, y):
    """The metadata sector with entry i. Answers that entry's edges."""
    count, size, cell = per_sector(tag), entry_size(tag), 35
    first = i // count * count
    end = LEFT + count * cell
    held = f"{count} entries of {size} bytes, here {first} to {first + count - 1}"
    drawing.lead(LEFT, y - 10, f"Metadata sector {i // count}.", held)
    for slot in range(count):
        drawing.field(LEFT + slot * cell, y, cell, BAR, "metadata", str(first + slot))
        drawing.mark(LEFT + slot * cell, y + BAR, str(slot * size))
    middle = (COLUMN - ID - end) / 2
    drawing.field(end, y, middle, BAR, "zero", "zeros")
    drawing.field(end + middle, y, middle, BAR, "plain", "mac")
    drawing.field(COLUMN - ID, y, ID, BAR, "id", "commit", "id")
    draw_marks(drawing, y + BAR, {end: count * size, end + middle: ENTRIES_END, COLUMN - ID: BODY, COLUMN: SECTOR})
    left = LEFT + i % count * cell
    drawing.outline(left, y, cell, BAR)
    return left, left + cell


def draw_marks(drawing, y, places):
    """The number at each place, below a row."""
    for x, byte in places.items():
        drawing.mark(x, y, str(byte))


def draw_entry(drawing, tag, i, y):
    """Entry i. Answers the middle of its last 8 data bytes."""
    size = entry_size(tag)
    first = i % per_sector(tag) * size
    drawing.lead(LEFT, y - 10, f"Entry {i}.", f"{size} bytes, from byte {first} of its metadata sector")
    draw_entry_fields(drawing, tag, y)
    return LEFT + 1.5 * WORD * BYTE


def draw_entry_fields(drawing, tag, y):
    """An entry's fields to scale, with the zeros behind the tag if there are any."""
    size, end = entry_size(tag), 2 * WORD + tag
    drawing.field(LEFT, y, WORD * BYTE, BAR, "plain", "logical", "sector")
    drawing.field(LEFT + WORD * BYTE, y, WORD * BYTE, BAR, "data", f"last {WORD}", "data bytes")
    drawing.field(LEFT + 2 * WORD * BYTE, y, tag * BYTE, BAR, "tag", f"tag of T = {tag} bytes")
    if end < size:
        drawing.field(LEFT + end * BYTE, y, (size - end) * BYTE, BAR, "zero", "zeros")
    draw_marks(drawing, y + BAR, {LEFT + at * BYTE: at for at in (0, WORD, 2 * WORD, end, size)})


def draw_padded(drawing, tag, y):
    """An entry whose tag part is longer than its tag, and the rule."""
    size = entry_size(tag)
    zeros = size - 2 * WORD - tag
    drawing.lead(LEFT, y - 10, f"An entry with T {tag}.", f"{size} bytes, to the same scale: {zeros} zero bytes of padding")
    draw_entry_fields(drawing, tag, y)
    drawing.text(SECOND, y + 4, "An entry's tag part is T rounded up to a")
    drawing.text(SECOND, y + 22, f"multiple of {WORD}, with zeros behind the tag.")
    drawing.text(SECOND, y + 40, "In the tag area a tag takes T bytes.")


def draw_data_sector(drawing, i, y):
    """Entry i's data sector."""
    drawing.lead(SECOND, y - 10, f"Data sector of entry {i}.", f"sector {METADATA} + {i} = {METADATA + i}")
    drawing.field(SECOND, y, RIGHT - ID - SECOND, BAR, "data", f"first {BODY} data bytes")
    drawing.field(RIGHT - ID, y, ID, BAR, "id", "commit", "id")
    draw_marks(drawing, y + BAR, {SECOND: 0, RIGHT - ID: BODY, RIGHT: SECTOR})


def draw_write(drawing, y):
    """The bytes that were written."""
    drawing.lead(SECOND, y - 10, "The write.", f"{SECTOR} data bytes")
    drawing.field(SECOND, y, RIGHT - ID - SECOND, BAR, "data", f"first {BODY}")
    drawing.field(RIGHT - ID, y, ID, BAR, "data", f"last {WORD}")
    draw_marks(drawing, y + BAR, {SECOND: 0, RIGHT - ID: BODY, RIGHT: SECTOR})


def draw_table(drawing, x, y):
    """The sizes for each tag size, a row to those that have the same."""
    heads = [
        ("T", "tag bytes"),
        ("entry", f"{2 * WORD} + {WORD} × ceil(T / {WORD})"),
        ("entries a sector", f"{ENTRIES_END} div entry"),
        ("E", f"{METADATA} × these"),
        ("M", f"{METADATA} + E sectors"),
    ]
    rows = [(words, *section_sizes(last)) for words, (_, last) in zip(range_words(), TAG_RANGES)]
    columns = (x + 56, x + 184, x + 308, x + 376, x + 468)
    for right, (name, rule), cells in zip(columns, heads, zip(*rows)):
        drawing.text(right, y, name, "strong", "end")
        drawing.text(right, y + 16, rule, "small", "end")
        draw_column(drawing, right, y + 42, cells)
    drawing.line([(x, y + 24), (columns[-1], y + 24)])


def range_words():
    """Each range of tag sizes with one entry size, in words."""
    return [f"{first} to {last}" for first, last in TAG_RANGES]


def draw_column(drawing, right, y, cells):
    for row, words in enumerate(cells):
        drawing.text(right, y + 22 * row, str(words), "label", "end")


def draw_rules(drawing, tag, x, y):
    rules = [
        (f"Entry i, T {tag}:", f"in metadata sector i div {per_sector(tag)}, at slot i mod {per_sector(tag)}"),
        ("Its data:", f"in sector {METADATA} + i of the section, and in the entry"),
        ("Unused entry:", "logical sector 2⁶⁴ − 1, all else zero, data too"),
        ("Mac:", f"{WORD} bytes, zero, ignored"),
        ("Commit id n:", "goes to section (n − 1) mod S"),
        ("Whole section:", "all M sectors carry one id, not zero"),
    ]
    for line, (name, rule) in enumerate(rules):
        drawing.lead(x, y + 20 * line, name, rule)


def description(tag, padded):
    *ranges, last_range = range_words()
    return (
        f"With tags of {tag} bytes a section has {METADATA} metadata sectors and {entry_count(tag)} data sectors. A metadata sector "
        f"has {per_sector(tag)} entries of {entry_size(tag)} bytes, zeros to byte {ENTRIES_END}, {WORD} mac bytes and the commit id of "
        f"{WORD} bytes. An entry is the logical sector, the last {WORD} data bytes and the tag, which zeros fill up to a multiple of "
        f"{WORD} bytes. The first {BODY} data bytes stand in the entry's data sector, before its commit id. With tags of {padded} bytes "
        f"an entry has {entry_size(padded)} bytes: {entry_size(padded) - 2 * WORD - padded} zero bytes stand behind the tag. A table has "
        f"the sizes for tags of {', '.join(ranges)} and {last_range} bytes."
    )


def draw_zooms(drawing, tag, i, top, bottom):
    """From entry i's two sectors in the strip to their pictures."""
    for sector, left, right in ((i // per_sector(tag), LEFT, COLUMN), (METADATA + i, SECOND, RIGHT)):
        drawing.zoom((sector_at(tag, sector), sector_at(tag, sector + 1), top), (left, right, bottom))


def draw_split(drawing, field, first, second, turn):
    """Where the write's bytes go: up to the data sector, and round to the entry's field."""
    body, last = RIGHT - ID - 40, RIGHT - ID / 2
    drawing.line([(body, second), (body, first + BAR + 1)], weight=1.5, arrow=True)
    drawing.line([(last, second + BAR), (last, turn), (field, turn), (field, second + BAR + 1)], weight=1.5, arrow=True)
    reason = f"The commit id takes the place of the last {WORD} data bytes, so these stand in the entry"
    drawing.text((field + last) / 2, turn - 7, reason, "note", "middle")


def draw():
    tag, i = EXAMPLE.T, ENTRY_SHOWN
    top, first, second, turn, third, low = 112, 246, 372, 450, 504, 614
    drawing = Drawing("A journal section, to the byte", description(tag, PADDED), 750)
    sizes = f"E = {entry_count(tag)} entries, M = {section_size(tag)} sectors of {SECTOR} bytes"
    drawing.head(f"T {tag}: {sizes}. The first strip is to scale; below it, entry {i} is followed to its bytes")
    draw_zooms(drawing, tag, i, top + 70, first - 30)
    draw_strip(drawing, tag, i, top)
    left, right = draw_metadata(drawing, tag, i, first)
    drawing.zoom((left, right, first + 60), (LEFT, COLUMN, second - 30))
    field = draw_entry(drawing, tag, i, second)
    draw_data_sector(drawing, i, first)
    draw_write(drawing, second)
    draw_split(drawing, field, first, second, turn)
    draw_padded(drawing, PADDED, third)
    drawing.line([(LEFT, low - 30), (RIGHT, low - 30)], RULE)
    draw_table(drawing, LEFT, low)
    draw_rules(drawing, tag, 530, low)
    return drawing
