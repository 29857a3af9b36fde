"""The table of a type, which reading fills in and from which all is written: its fields, its variants, and what is known of it."""
