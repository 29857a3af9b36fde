"""Which names a text has of those that a table lists by their modules."""
import re

# How long a line is at most that brings in names.
LONGEST = 160


def has_word(text, name):
    """Whether a text has a name, or an operator's sign."""
    sign = name.replace("◌", "")
    if sign.isidentifier():
        return re.search(rf"(?<![\w.:]){sign}\b", text) is not None
    return (f" {sign} " if len(name) == len(sign) + 2 else sign) in text


def short_lines(module, names, line):
    """The line that brings in these names of a module, or as few as are short enough, of about as many names each."""
    count = 1
    while True:
        size = -(-len(names) // count)
        lines = [line(module, names[start : start + size]) for start in range(0, len(names), size)]
        if size == 1 or max(len(each.strip()) for each in lines) <= LONGEST:
            return lines
        count += 1


def imports(text, table, line):
    """The lines that bring in what a text names."""
    found = []
    for module, names in table.items():
        here = [name for name in dict.fromkeys(names.split()) if has_word(text, name)]
        if here:
            found += short_lines(module, here, line)
    return sorted(found)
