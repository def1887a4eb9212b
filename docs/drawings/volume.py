"""Document 01's formulas, over a volume's parameters r, T, N, S and P: "Volume layout" and "A journal section".

T is any size from 1 to 32, by document 02, order 4. `check_examples` holds the formulas to the numbers of both documents. Unless
said otherwise, sizes and addresses are in sectors.
"""

from typing import NamedTuple

SECTOR = 512
SUPERBLOCK = 8  # sectors
SUPERBLOCK_BYTES = SUPERBLOCK * SECTOR
METADATA = 8  # sectors of a section
WORD = 8  # bytes of a logical sector's number, of the last data bytes, of the mac and of a commit id
ENTRIES_END = SECTOR - 2 * WORD  # byte of a metadata sector
BODY = SECTOR - WORD  # data bytes of a sector that stand in a data sector of the journal
FIRST_ID = 1  # the commit id that a fresh volume's first batch gets
VERSION = 128


def entry_size(tag):
    """An entry's bytes. Its tag part is rounded up to whole words."""
    return 2 * WORD + WORD * -(-tag // WORD)


def per_sector(tag):
    return ENTRIES_END // entry_size(tag)


def entry_count(tag):
    return METADATA * per_sector(tag)


def section_size(tag):
    return METADATA + entry_count(tag)


def section_sizes(tag):
    """An entry's bytes, the entries of a metadata sector, E and M."""
    return entry_size(tag), per_sector(tag), entry_count(tag), section_size(tag)


class Layout(NamedTuple):
    """A volume's parameters and what follows from them, by document 01's letters."""

    r: int
    T: int
    N: int
    S: int
    P: int

    @property
    def A(self):
        return 8 * -(-self.N * self.T // 4096)

    @property
    def M(self):
        return section_size(self.T)

    @property
    def journal(self):
        return self.r + SUPERBLOCK

    @property
    def B(self):
        return self.journal + self.S * self.M

    def run(self, s):
        return self.B + s // self.N * (self.A + self.N)

    def place(self, s):
        return self.run(s) + self.A + s % self.N

    def tag_offset(self, s):
        """The byte of its tag area at which the tag of s starts."""
        return s % self.N * self.T

    def tag_byte(self, s):
        return self.run(s) * SECTOR + self.tag_offset(s)

    def tag_sector(self, s):
        """The sector with the tag's first byte."""
        return self.tag_byte(s) // SECTOR

    def tag_crosses(self, s):
        """Whether the tag of s goes on in the next sector. It follows from s mod N, so s need not be below P."""
        return self.tag_offset(s) % SECTOR + self.T > SECTOR

    def store_count(self, s):
        """The stores of an entry for s: data, and one or two tag sectors."""
        return 3 if self.tag_crosses(s) else 2

    def entry_stores(self, s):
        """The sectors stored for an entry for s, in order."""
        first = self.tag_sector(s)
        return [self.place(s), first, first + 1][:self.store_count(s)]

    @property
    def sectors(self):
        return self.place(self.P - 1) + 1

    def commit(self):
        """The sectors that a commit to section 0 stores, in order."""
        return list(range(self.journal, self.journal + self.M))

    def stores(self, batch):
        """The sectors stored for a batch of these logical sectors: the commit, then data and tag of each entry."""
        return self.commit() + [sector for s in batch for sector in self.entry_stores(s)]

    def to_come(self, batch, made):
        """The stores to come that open reports after a cut with so many stores made: none of a section that isn't whole."""
        return sum(map(self.store_count, batch)) if made >= self.M else 0


EXAMPLE = Layout(r=0, T=32, N=16, S=1, P=16)
LONGER = EXAMPLE._replace(P=20)
CROSSING = Layout(r=0, T=30, N=32, S=1, P=24)
TAG_RANGES = ((1, 8), (9, 16), (17, 24), (25, 32))  # the first and the last size of those with one entry size
PADDED = 20  # a tag size whose entry ends with zeros
SHOWN = 5  # the logical sector whose place and write are shown
SHOWN_LONGER = 17
SHOWN_CROSSING = 17
ENTRY_SHOWN = 57  # of a section


def check_examples():
    check_base()
    check_tag_sizes()


def check_base():
    """Document 01, "Bench examples"."""
    assert [section_sizes(t) for t in (8, 16, 32)] == [(24, 20, 160, 168), (32, 15, 120, 128), (48, 10, 80, 88)]
    assert [EXAMPLE._replace(N=n).A for n in (128, 256)] == [8, 16]
    assert (EXAMPLE.sectors, EXAMPLE.place(5), EXAMPLE.tag_byte(5)) == (120, 109, 49_312)
    assert (LONGER.sectors, LONGER.place(17), LONGER.tag_byte(17)) == (132, 129, 61_472)
    assert EXAMPLE.stores([5]) == [*range(8, 96), 109, 96]
    assert (EXAMPLE.M, len(EXAMPLE.stores([5])), len(EXAMPLE.stores([5, 5]))) == (88, 90, 92)
    assert [EXAMPLE.to_come([5], made) for made in (0, 87, 88, 89, 90)] == [0, 0, 2, 2, 2]


def check_tag_sizes():
    """Document 02, order 4."""
    sizes = [{entry_size(t) for t in range(first, last + 1)} for first, last in TAG_RANGES]
    assert sizes == [{24}, {32}, {40}, {48}]
    assert section_sizes(20) == (40, 12, 96, 104)
    assert Layout(r=0, T=20, N=8, S=1, P=8).sectors == 128
    assert (CROSSING.sectors, CROSSING.tag_offset(17)) == (128, 510)
    assert [CROSSING.tag_crosses(s) for s in (16, 17, 18, 49)] == [False, True, False, True]
    assert not any(map(EXAMPLE.tag_crosses, range(EXAMPLE.P)))  # the last ends where its sector does
    assert [CROSSING.to_come([s], CROSSING.M) for s in (16, 17, 18, 49)] == [2, 3, 2, 3]
    assert CROSSING.to_come([16, 17, 18, 49], CROSSING.M) == 10
    assert CROSSING.stores([17]) == [*range(8, 96), 121, 96, 97]


def superblock_fields(g):
    """First byte, bytes as stored, name and value of each field of the superblock that a layout decides or fixes."""
    log_n = g.N.bit_length() - 1
    fields = [
        (0, b"integrt\0", "fixed bytes", "integrt, 0"),
        (8, VERSION.to_bytes(1, "little"), "version", number(VERSION)),
        (9, log_n.to_bytes(1, "little"), "log2 of the run length N", number(log_n)),
        (10, g.T.to_bytes(2, "little"), "tag bytes T", number(g.T)),
        (12, g.S.to_bytes(4, "little"), "section count S", number(g.S)),
        (16, g.P.to_bytes(8, "little"), "provided sectors P", number(g.P)),
        (24, bytes(4), "flags", number(0)),
        (28, bytes(1), "log2 sectors per block", number(0)),
    ]
    assert all(first + len(stored) == then for (first, stored, *_), (then, *_) in zip(fields, fields[1:]))
    return fields


def number(n):
    return f"{n:,}"


def place_sum(g, s):
    """Where logical sector s lies, as document 01's formula with its numbers."""
    return f"{g.B} + {s // g.N} × {g.A + g.N} + {g.A} + {s % g.N} = {g.place(s)}"


def tag_sum(g, s):
    """The byte at which the tag of logical sector s starts, likewise."""
    run = f"({g.B} + {s // g.N} × {g.A + g.N})"
    return f"{run} × {SECTOR} + {s % g.N} × {g.T} = {number(g.tag_byte(s))}"
