"""Writes what is derived for types that lead back to themselves."""
