"""Breaks lines of proofs and of contracts that are longer than WIDE at their shallowest places.

`rt fmt` sets the indentation afterwards. Code, comments and `ghost use` stay as they are.
"""
import re

# A line is broken where it is longer than WIDE, and no part of it is then longer than MOST.
WIDE = 160
MOST = 156
# The least width of a part.
LEAST = 50
CONTRACT = re.compile(r"(ensures|requires|invariant|ghost (?!use))")
# Words after which a line had better go on, with how much that counts against a break; a bracket counts 2.
KEEPS = {"λ": 6, "let": 6, "in": 6, "pub": 6, "ghost": 6, "module": 6, "where": 6, "use": 6, "{": 2, "→": 1, "=": 1}
# Words that had better not begin a line, and, below zero, those that may well.
BEGINS = {"=": 3, ":": 3, ".": 3, "where": 3, "}": 3, ";": 3, "≡": 1, "≤": 1, "<": 1,
          "→": -3, "in": -3, "∙": -1, "++": -1, "×": -1, "⊎": -1, "∷": -1, "&&": -1, "||": -1}


def spaces(line):
    """The spaces outside of texts and quotes, each with the number of brackets that are open there."""
    depth, in_text, found = 0, False, []
    for at, sign in enumerate(line):
        if sign == '"' and line[at - 1] != "\\":
            in_text = not in_text
        elif sign in "⟦⟧":
            in_text = sign == "⟦"
        elif not in_text:
            depth += (sign in "([{") - (sign in ")]}")
            if sign == " ":
                found.append((at, depth))
    return found


def cost(line, at, depth):
    """How bad a break at this space is."""
    before, after = line[:at].rsplit(" ", 1)[-1], line[at + 1:].split(" ", 1)[0]
    binder = line[:at].rfind("λ")
    in_binder = binder >= 0 and "." not in line[binder:at]
    return depth * 2 + KEEPS.get(before, 0) + BEGINS.get(after, 0) + 6 * in_binder


def parts(line):
    """The line in parts, the first with its indentation and the others with four columns more."""
    margin = " " * (len(line) - len(line.lstrip(" ")) + 4)
    done = []
    while len(line) > MOST:
        least = len(line) - len(line.lstrip(" ")) + LEAST
        places = [(at, depth) for at, depth in spaces(line) if least <= at <= MOST]
        if not places:
            break
        at = min(places, key=lambda place: (cost(line, *place), -place[0]))[0]
        done.append(line[:at])
        line = margin + line[at + 1:].lstrip(" ")
    return done + [line]


def broken(text, is_proof):
    """The text with its long lines in parts; of code, only those of contracts, which go on until their bracket is closed."""
    done, depth = [], 0
    for line in text.split("\n"):
        bare = line.strip()
        is_comment = bare.startswith(("--", "//"))
        in_contract = not is_proof and not is_comment and (depth > 0 or CONTRACT.match(bare))
        if in_contract:
            depth += line.count("{") - line.count("}")
        apt = not is_comment and (is_proof or in_contract)
        done.extend(parts(line) if len(line) > WIDE and apt else [line])
    return "\n".join(done)
