"""Reads declarations: the text of a file, its types, its notes, and what it brings in."""
