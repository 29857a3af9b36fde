"""Writes what is there once for each number of elements: tools/tuples.py."""
