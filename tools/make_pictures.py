#!/usr/bin/env python3
"""make_pictures.py FOLDER: writes the pictures of docs/FORMAT.md as SVG files.

What they show is worked out from document 01's rules: heights from the bits of i - 1, left children by the floor form,
lengths by the formula, and the search by running it; the auditors' proofs are by RFC 6962's rules. Each picture has its own background, and colours for light and dark.
"""
import sys
from pathlib import Path

sys.dont_write_bytecode = True  # a run leaves nothing in the repository

from pictures.auditors import auditors_picture
from pictures.entry import entry_picture
from pictures.search import search_picture
from pictures.trees import tree_picture


def main():
    folder = Path(sys.argv[1])
    tree_picture(folder, 7, pitch=96, row=62, width=60, height=30, size=14)
    tree_picture(folder, 22, pitch=56, row=54, width=42, height=24, size=12)
    entry_picture(folder)
    search_picture(folder)
    auditors_picture(folder)


main()
