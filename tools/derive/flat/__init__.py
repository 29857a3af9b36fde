"""Writes what is derived for types that don't lead back to themselves."""
