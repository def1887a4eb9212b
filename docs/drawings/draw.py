#!/usr/bin/env python3
"""Draws layout.svg, section.svg and timeline.svg into the folder that the argument names, or into its own.

Every number in them follows from r, T, N, S and P by the formulas of document 01 and of document 02, order 4 (volume.py), which
are held to their examples first.
"""

import sys
from pathlib import Path

sys.dont_write_bytecode = True

import layout
import section
import timeline
import volume

DRAWINGS = {"layout.svg": layout.draw, "section.svg": section.draw, "timeline.svg": timeline.draw}


def main():
    folder = Path(sys.argv[1]) if len(sys.argv) > 1 else Path(__file__).parent
    volume.check_examples()
    for name, draw in DRAWINGS.items():
        (folder / name).write_text(draw().render(), encoding="utf-8")


main()
