"""The tool that derives: tools/derive.py. tools/README.md says which room has what."""
