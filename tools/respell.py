#!/usr/bin/env python3
"""Respells this repository's own names as today's Rattle spells them, once, after the kit's port.py.

Types and facts are in upper camel case, all other names in snake case. In a lemma's name a dash joins two names of
definitions, and a plain word is added with `_`. Run at the top of the repository; prints what it renamed.
"""
import pathlib
import re
import sys

# Names that would fall together with another name, or that their words give away badly.
CHOSEN = {n: n.replace("-", "_") for n in ("crossed-finds", "crossed-sound", "crossed-order", "crossed-once", "crossed-counts")} | {
    "getD-climbs": "get_or-climbs",
    "ofZ-lt": "of_z-lt",
    "holds_on": "HoldsOn",
    "placeFor": "place_for",
    "table-size-is": "table_size_is",
    "joined-append": "flat_map-append",
    "joined-next": "flat_map_next",
    "somes-joined": "somes-flat_map",
    "length-joined-le": "length-flat_map_le",
    "band-fits": "band_accepted",
    "same-sound": "same_sound",
    "same-amounts": "same_amounts",
    "same-order": "same_order",
} | {n: n.replace("-", "_") for n in ("own-rows", "enters-last", "raised-order", "complement-band", "shadow-rows", "set-band")}

# Words of lemma names that say something of a name, though some definition has them as its own.
PLAIN = set(
    "is are exact in below between all count some none more same long past most once few one both each next within at from still "
    "split moved behind before enough apart whole stands spent finished finds counts valid fits kept located many".split()
)

WORD = r"[^\s(){}\[\];,.`\"|:=]+"
SIGNED = re.compile(r"^(\s*)((?:(?:abbrev|pub|unfoldable|record|data) )*)(" + WORD + r")((?:\s*[({].*?[)}])*)\s*:(?![:=])\s*(.*)$")
OPENED = re.compile(r"^(\s*)((?:(?:abbrev|pub|unfoldable|record|data) )+)(" + WORD + r")((?:\s*[({].*?[)}])*)\s*$")
KEPT = {"Answers.antt", "Invariants.antt", "Proof.antt"}


def snake(word):
    """One name or word in snake case; signs and capitals alone stay."""
    if re.fullmatch(r"[A-Z][a-z]*(?:[A-Z][a-z]*)*", word):
        return word
    word = re.sub(r"(?<=[a-z0-9])([A-Z])(?=[a-z])", lambda m: "_" + m[1].lower(), word)
    return re.sub(r"(?<=[a-z0-9])([A-Z])\b", lambda m: "_" + m[1].lower(), word)


def camel(name):
    return "".join(part[:1].upper() + part[1:] for part in name.split("-"))


def declared(root):
    """name -> set of kinds, over every definition, lemma, field and constructor of specs/ and proofs/."""
    found = {}
    for path in sorted(root.glob("crates/*/specs/**/*.antt")) + sorted(root.glob("crates/*/proofs/**/*.antt")):
        within = None
        for line in path.read_text().split("\n"):
            if line.lstrip().startswith("--"):
                continue
            m = SIGNED.match(line) or OPENED.match(line)
            if not m:
                if line and not line[0].isspace():
                    within = None
                continue
            name, words = m[3], m[2].split()
            kind = m[5] if m.re is SIGNED else ""
            if path.name in KEPT and kind.startswith("goal."):
                continue
            if "record" in words or "data" in words:
                sort, within = "type", ("record" if "record" in words else "data")
            elif re.search(r"(?:^|→ )Type [0ℓ]", kind) and not re.search(r"→ [^T]*$", re.sub(r"\([^()]*\)", "", kind.split("Type")[-1])):
                sort = "type"
            elif within and m[1] and not ("abbrev" in words):
                sort = "member"
            elif "abbrev" in words or "unfoldable" in words:
                sort = "definition"
            else:
                sort = "lemma"
            if not m[1] and sort != "type":
                within = None
            found.setdefault(name, set()).add(sort)
    return found


def respelled(name, sorts, names):
    """The new spelling of one name, given the names of definitions."""
    if name in CHOSEN:
        return CHOSEN[name]
    if "type" in sorts:
        return camel(name)
    if "lemma" not in sorts:
        return snake(name).replace("-", "_")
    parts, taken = name.split("-"), []
    while parts:
        size = next((n for n in range(len(parts), 0, -1) if "-".join(parts[:n]) in names and n < len(parts) + len(taken)), 1)
        taken.append(("-".join(parts[:size]), "-".join(parts[:size]) in names))
        parts = parts[size:]
    out = snake(taken[0][0]).replace("-", "_")
    for (_, before), (part, after) in zip(taken, taken[1:]):
        out += ("-" if before and after else "_") + snake(part).replace("-", "_")
    return out


def bound(root, found):
    """Names with a dash or a capital within that a `let`, a λ or a binder gives, and that no library has."""
    given, library = set(), set()
    for path in sorted(root.glob("crates/*/specs/**/*.antt")) + sorted(root.glob("crates/*/proofs/**/*.antt")):
        text = path.read_text()
        for m in re.finditer(r"^use Rattle\.std\.[^{]*\{([^}]*)\}", text, re.M):
            library |= {w.split(" as ")[0] for w in m[1].split(", ")}
        given |= set(re.findall(r"\blet (" + WORD + r")", text))
        for m in re.finditer(r"λ ([^.]*)\.", text):
            given |= set(re.findall(WORD, re.sub(r":[^()]*", " ", m[1])))
        for m in re.finditer(r"[({]((?:" + WORD + r" )+): ", text):
            given |= set(m[1].split())
    odd = {n for n in given if re.search(r"[\w']-[\w']", n) or re.match(r"[a-z]\w*[a-z0-9][A-Z]", n)}
    return {n for n in odd if n not in library and n not in found}


def turned(path, text, new):
    """The text of one file with its names respelled."""
    token = re.compile(WORD)
    swap = lambda m: new.get(m[0], m[0])
    if path.suffix == ".md":
        return re.sub(r"`[^`\n]*`", lambda m: token.sub(swap, m[0]), text)
    if "AllByRecursion as All" in text:
        # an import may not stand under a plain word of the library
        text = text.replace("AllByRecursion as All", "AllByRecursion")
        new = new | {"All": "AllByRecursion"}
    lines = []
    for line in text.split("\n"):
        if line.lstrip().startswith(("--", "//")):
            dashed = {n: t for n, t in new.items() if "-" not in n}
            lines.append(token.sub(lambda m: dashed.get(m[0], m[0]), line))
        else:
            lines.append(token.sub(lambda m: m[0] if line[m.start() - 1 : m.start()] == "." and m[0] == "All" else new.get(m[0], m[0]), line))
    return "\n".join(lines)


def main():
    root = pathlib.Path(".")
    found = declared(root)
    names = {n for n, s in found.items() if s - {"lemma"}} | {n for n in found if re.fullmatch(r"[A-Z]\w*", n)}
    names -= PLAIN
    names |= {"length", "take", "drop", "append", "nil", "cons", "map", "sum", "get_or", "set", "max", "min"}
    new = {n: respelled(n, s, names) for n, s in found.items()}
    new |= {"placeFor": CHOSEN["placeFor"]}
    new |= {n: snake(n).replace("-", "_") for n in bound(root, found)}
    taken = {}
    for n, t in new.items():
        taken.setdefault(t, []).append(n)
    for t, ns in sorted(taken.items()):
        if len(ns) > 1:
            print("fall together:", t, ns)
    new = {n: t for n, t in new.items() if n != t}
    for n in sorted(new):
        print(f"{n} -> {new[n]}  {'/'.join(sorted(found.get(n, {'bound'})))}")
    if "--list" in sys.argv:
        return
    kinds = ["crates/*/specs/**/*.antt", "crates/*/proofs/**/*.antt", "crates/*/src/**/*.rt", "crates/*/must-fail/*.edit", "docs/*.md", "README.md"]
    for path in sorted(p for k in kinds for p in root.glob(k)):
        text = path.read_text()
        if (after := turned(path, text, new)) != text:
            path.write_text(after)


main()
