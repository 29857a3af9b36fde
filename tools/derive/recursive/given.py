"""The parts of a recursive type that are other types: each is known by its traits alone, which its implementation gives.

The definitions of a recursive type are in specs/, which no implementation's members reach. So they have parameters for what such a part is read
from, is written as and is known of, and the laws have parameters for its laws. A file's items come in sections, by what they depend on.
"""
from __future__ import annotations

import re
from collections.abc import Iterable
from typing import TYPE_CHECKING, Optional

from shared.brackets import split

from ..table.kinds import parted
from ..flat.alikes import Alikes
from ..flat.rounds import Onlys, Rounds
from ..table.own import Own
from .leaves import LEAVES, Part

if TYPE_CHECKING:
    from .levels import Level

# What a parameter is called, and for each part its place's type, by the letter of what depends on it. `s` is that of the settings.
PARAMETERS = {
    "R": ("reads_of", "Msg → {t} → Type 0"),
    "D": ("data_of", "{t} → Option Data"),
    "F": ("fits_of", "{t} → Type 0"),
    "S": ("some_of", "(x : {t}) → IsSome (data_of{p} x)"),
    "B": ("row_of", "(x : {t}) → fits_of{p} x → LowersTo s (data_of{p} x) (λ m. reads_of{p} m x)"),
    "Q": ("same_of", "{t} → {t} → Type 0"),
    "O": ("only_of", "(x : {t}) → fits_of{p} x → LowersTo s (data_of{p} x) (λ m. Only reads_of{p} same_of{p} m x)"),
}
# What a section begins with that depends on the settings.
SETTINGS = "module _ (s : Settings) where\n"
DEFINED = re.compile(r"^ *(?:abbrev )?(?:pub )?([\w-]+) :", re.M)
WORD = re.compile(r"(?<![\w.-])[\w-]+")
# Where the words of such types' terms come from.
HOMES = {"std.specs.Prelude": "ℕ ℤ Bool List Option String Vec Box", "std.specs.declared.alloc.Global": "Global", "rmp_wire.specs.Msg": "Msg"}
HOMES |= {f"std.specs.declared.collections.{kind}": kind for kind in ("BTreeMap", "BTreeSet", "VecDeque")}
# The types of the libraries that are named by themselves, and where they are declared.
DECLARED = {
    **dict.fromkeys(("ByteBuf", "Ext", "F32Bits", "F64Bits"), "rmp_wire.specs.declared.types"),
    "Float64": "rmp_types.specs.declared.float",
    "Timestamp": "rmp_types.specs.declared.timestamp",
    "Raw": "rmp_serde.specs.declared.raw",
    "Value": "rmp_serde.specs.declared.value",
}
LISTS = ("Vec", "VecDeque", "BTreeSet", "Box")


def given_part(kind: str, term: str, place: str) -> Part:
    """What is known of another type that has the traits, whose place among those that are given is this."""
    absent = ("(Some None)", "Some(None)") if kind.startswith("Option<") else ("None", "None")
    return Part(
        kind, term, f"reads_of{place} {{k}} {{a}}", f"data_of{place} {{a}}", f"fits_of{place} {{a}}", f"row_of{place} {{a}} {{fit}}",
        f"only_of{place} {{a}} {{fit}}", is_lent=True, word=re.sub(r"\W+", "_", kind).strip("_").lower(), is_some=f"(some_of{place} {{a}})",
        same=f"same_of{place} x y", alike=f"alike_of{place} {{v}} {{w}} {{e}}", absent=absent[0], made_absent=absent[1], place=place,
    )


def given_parts(kinds: Iterable[str], types: dict[str, Own]) -> list[Part]:
    """That of each of these types that may be given."""
    found = [(kind, term) for kind, term in ((kind, term_of(kind, types)) for kind in dict.fromkeys(kinds)) if term]
    return [given_part(kind, term, f".{at}" if len(found) > 1 else "") for at, (kind, term) in enumerate(found)]


def term_of(kind: str, types: dict[str, Own]) -> Optional[str]:
    """The type in terms, where it is one that may be given."""
    if kind in LEAVES or kind == "()":
        return LEAVES[kind].term if kind in LEAVES else "Unit {0}"
    name, inner = parted(kind)
    if kind[0] in "([":
        inner = split(kind[1:-1]) if kind[0] == "(" else [kind[1:-1].rpartition(";")[0].strip()]
    of = [term_of(part, types) for part in inner]
    if None in of:
        return None
    if kind[0] == "[":
        return f"List ({of[0]})"
    if kind[0] == "(":
        return " × ".join(f"({it})" for it in of) if len(of) > 1 else None
    if name in types:
        own = types[name]
        known = not own.of.lifetime and {"Serialize", "Deserialize"} <= own.derived | own.by_hand
        return " ".join([f"The{name}", *(f"({it})" for it in of)]) if known else None
    if name in LISTS:
        return f"{name} ({of[0]}) Global"
    if name == "Option":
        return f"Option ({of[0]})"
    return f"BTreeMap ({of[0]}) ({of[1]}) Global" if name == "BTreeMap" else name if name in DECLARED else None


def in_brackets(term: str) -> str:
    """The term as an argument."""
    return f"({term})" if " " in term else term


def homes_of(parts: Iterable[Part], types: dict[str, Own]) -> dict[str, str]:
    """Where the types are declared that the terms of these parts name, with what they are called there and here."""
    words = sorted({word for part in parts for word in WORD.findall(part.term)})
    found = {f"{home}.{name}": name for name, home in DECLARED.items() if name in words}
    found |= {types[word[3:]].declared: f"{word[3:]} as {word}" for word in words if word.startswith("The") and word[3:] in types}
    return found


def ghost_words(parts: Iterable[Part], types: dict[str, Own]) -> dict[str, list[str]]:
    """What the terms of these parts bring into code, by where it comes from."""
    words = {"Msg", "Bool", *(word for part in parts for word in WORD.findall(part.term))}
    found = {home: [name for name in names.split() if name in words] for home, names in HOMES.items()}
    return found | {home: [name] for home, name in homes_of(parts, types).items()}


def parameters(level: Level, letters: str) -> list[tuple[str, str]]:
    """The parameters of what depends on these, with their types."""
    return [(name, in_turn(level, kind)) for name, kind in (PARAMETERS[letter] for letter in letters if letter != "s")]


def in_turn(level: Level, kind: str) -> str:
    """The type of such a parameter, by that of a part's place."""
    of = [kind.format(p=part.place, t=in_brackets(part.term)) for part in level.given]
    return of[0] if len(of) == 1 else " × ".join(f"({it})" for it in of)


def arguments(level: Level, letters: str) -> str:
    """The parameters, as arguments."""
    return "".join([" s"] * ("s" in letters) + [f" {name}" for name, _ in parameters(level, letters)])


def applied(text: str, words: dict[str, str]) -> str:
    """The text with arguments after these words, by what each takes. One that takes the settings has them already, or is in their section."""

    def put(found: re.Match[str]) -> str:
        taken = words.get(found[1], "")
        settings = found[2] or "" if not taken.startswith(" s ") else ""
        return f"({found[1]}{taken}){settings}" if taken else found[0]

    return re.sub(rf"({WORD.pattern})( s\b)?", put, text)


def words_of(level: Level, sections: Iterable[tuple[str, str]]) -> dict[str, str]:
    """What the words take that these sections define."""
    return {word: letters for letters, text in sections for word in DEFINED.findall(text) if letters} if level.given else {}


def in_order(level: Level, reads: str, written: list[tuple[str, str]], steps: str) -> list[tuple[str, str]]:
    """What a type is read from and written as, and one step of its reading by another: in one section with the first, where parts are given."""
    return [("R", reads + steps), *written] if level.given else [("R", reads), *written, ("R", steps)]


def put_together(level: Level, sections: list[tuple[str, str]], known: dict[str, str]) -> str:
    """The text of a file: its sections, each by what it depends on. These are known from other files."""
    if not level.given:
        return "".join(text for _, text in sections)
    words, whole = known | words_of(level, sections), ""
    for letters, text in sections:
        own = DEFINED.findall(text)
        text = applied(text, {word: arguments(level, takes) for word, takes in words.items() if word not in own})
        whole += in_section(level, letters, text)
    return whole


def in_section(level: Level, letters: str, text: str) -> str:
    """A section with its parameters."""
    bound = "".join(f" ({name} : {kind})" for name, kind in parameters(level, letters))
    if not bound or not text.strip():
        return text
    if SETTINGS in text:
        return text.replace(SETTINGS, SETTINGS.replace(" where", f"{bound} where"))
    lines = [f"  {line}" if line else "" for line in text.strip("\n").split("\n")]
    return f"\nmodule _{bound} where\n" + "\n".join(lines) + "\n"


# ---- in code and in proofs


def given_by(level: Level, text: str, given: str) -> str:
    """The text where what the parts are read from is this, and what else is given is left open."""
    if not level.given:
        return text
    reads = PARAMETERS["R"][0]
    takes = {word: "".join(f" {given}" if name == reads else " _" for name in arguments(level, of).split()) for word, of in level.words.items()}
    return applied(WORD.sub(lambda word: given if word[0] == reads else word[0], text), takes)


def answered(level: Level, text: str) -> str:
    """The same of a proof, of a function that reads or of one that writes."""
    return given_by(level, text, f"(g.P.{level.name}Parts.reads_of g.C.SerializerConfig.human)")


def quoted(level: Level, word: str, letters: str, human: str = "human", lends: str = "R.lends") -> str:
    """A word with what the parts' implementations give it."""
    said = {
        "R": f"⟦<{{k}} as Deserialize<'de, R>>⟧.reads {human} {lends}",
        "D": f"(λ x. ⟦<{{k}} as Serialize>⟧.data_of x {human})",
        "F": "⟦<{k} as Serialize>⟧.is_value",
        "Q": "⟦<{k} as RoundTrip<'de, R>>⟧.same",
    }
    terms = [f"({', '.join(said[letter].format(k=part.kind) for part in level.given)})" for letter in letters]
    return f"({word} {' '.join(terms)})" if level.given else word


def laws(level: Level, own: Own) -> tuple[list[str], list[str]]:
    """The implementations' laws of the parts, for `RoundTrip`: those of each member, and the lines that name what they are proved by."""
    rounds, onlys = Rounds(own), Onlys(own)
    some = [f"(λ x. {rounds.some(part.kind, 'x')})" for part in level.given]
    alike = [f"(λ x y e i. {Alikes(onlys).at(part.kind, 'x', 'y', 'e')})" for part in level.given]
    rows = [f"(λ x h. {rounds.round(part.kind, 'x', 'h')})" for part in level.given]
    only = [f"(λ x h. {onlys.round(part.kind, 'x', 'h')})" for part in level.given]
    for more in (rounds, onlys):
        own.others |= more.others
        own.brought |= more.brought
    named = {**rounds.named, **onlys.named}
    lines = [f"    ghost use Rattle.{path}.TheImpl.Laws as {name};" for name, path in sorted(named.items())]
    lines += ["    ghost use mir.Syntax.{given};"] * any("(given 0)" in term for term in [*some, *rows, *only, *alike])
    return [f" ({', '.join(terms)})" if terms else "" for terms in (some, rows, only, alike)], lines


def bound_kinds(level: Level) -> str:
    """The types of what two values of the same content are written alike by: a way to write each part that is given, which writes what has the same
    content alike."""
    alike = in_turn(level, "(x y : {t}) → same_of{p} x y → data_of{p} x ≡ data_of{p} y") if level.given else ""
    return f"(data_of : {in_turn(level, PARAMETERS['D'][1])}) → ({alike}) → " if level.given else ""
