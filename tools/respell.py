#!/usr/bin/env python3
"""Respells the definitions and lemmas of this repository: words are in snake case.

    python3 tools/respell.py        at the top, once, after port.py

A name is one of ours where specs/ or proofs/ declares it; a name that only a Proof.antt declares is the name of a goal there, and stays,
but for that of the proof itself. Where a definition and a lemma would get one name, the lemma gets the ending `_law`; port.py turned some
of these lemmas already. Words of comments are turned where they stand in backquotes. Prints what was turned.
"""
import collections
import glob
import re

END = r"\s(){}\[\];,.«»⦃⦄:`"
NAME = re.compile(rf"[^{END}]+")
HEAD = re.compile(
    rf"^\s*((?:abbrev|unfoldable|pub|data|record|opaque)\s+)*([^{END}]+(?:\s+[^{END}]+)*)\s*:\s"
)


# Names that are chosen, where the rule would give an ending to a word of specs/.
CHOSEN = {
    "onLeft": "with_left",
    "onRight": "with_right",
    "too_small": "below_floor",
    "one-or-three": "odd_negatives",
}

# port.py gave this lemma the name of a definition.
FALLEN_TOGETHER = {"crates/signed_graph/proofs/Soundness.antt": {"table_of": "table_of_law"}}


def logic_files():
    return sorted(
        f
        for part in ("specs", "proofs")
        for f in glob.glob(f"crates/*/{part}/**/*.antt", recursive=True)
    )


def snake(name):
    name = re.sub(r"([a-z0-9])([A-Z])", lambda m: m[1] + "_" + m[2].lower(), name)
    return name.replace("-", "_")


def is_old(name):
    return re.match(r"[a-z]", name) and re.search(r"-|[a-z0-9][A-Z]", name)


def declared():
    """Each of our names with the files that declare it."""
    where = collections.defaultdict(set)
    for f in logic_files():
        for line in open(f, encoding="utf-8"):
            m = HEAD.match(line.split("--")[0].rstrip() + " ")
            if m:
                for name in m[2].split():
                    where[name].add(f)
    return where


def imported():
    """The names that some file takes from a library."""
    names = set()
    for f in logic_files():
        for module, list_ in re.findall(r"use\s+([^\s{]+)\.\{([^}]*)\}", open(f, encoding="utf-8").read()):
            if not re.match(r"Rattle\.(?!std\.)", module):
                names.update(item.split(" as ")[-1].strip() for item in list_.split(","))
    return names


def mapping():
    where = declared()
    libraries = imported()
    taken = {name for name in where if not is_old(name)}
    turned = dict(CHOSEN)
    taken -= set(CHOSEN)
    ours = [n for n in where if is_old(n) and n not in libraries and n not in CHOSEN]
    ours = [n for n in ours if n.endswith("-spec") or not all(f.endswith("/Proof.antt") for f in where[n])]
    # definitions, in camel case, before lemmas
    for name in sorted(ours, key=lambda n: ("-" in n, n)):
        new = snake(name)
        if new in taken and "-" not in name:
            turned[new] = new + "_law"
            taken.remove(new)
        elif new in taken or new in turned.values():
            new += "_law"
        if new in taken or new in turned.values():
            raise SystemExit(f"two names for {new}")
        turned[name] = new
    return turned


def turn_text(text, names):
    return NAME.sub(lambda m: names.get(m[0], m[0]), text)


def turn_comment(text, names):
    return re.sub(r"`[^`]*`", lambda m: turn_text(m[0], names), text)


def turn_logic(line, names):
    at = re.search(r"(^|\s)--(\s|$)", line)
    at = at.start() if at else len(line)
    return turn_text(line[:at], names) + turn_comment(line[at:], names)


def turn_logic_file(f, names):
    old = open(f, encoding="utf-8").read()
    new = "".join(turn_logic(line, names) for line in old.splitlines(keepends=True))
    return old, new


def turn_source(old, names):
    """Turns the ghost imports and the clauses: their braces are counted from the word that opens them."""
    out = []
    depth = None
    for line in old.splitlines(keepends=True):
        code, _, comment = line.partition("//")
        if comment:
            out.append(turn_comment(line, names) if not code.strip() else line)
            if not code.strip():
                continue
            out.pop()
        if depth is None:
            m = re.match(r"\s*(pub\s+)?(ghost\b|requires\b|ensures\b|decreases\b|invariant\b)", code)
            if m:
                depth = 0
        if depth is None:
            out.append(line)
            continue
        out.append(turn_text(line, names))
        depth += code.count("{") - code.count("}")
        if depth <= 0 and ("}" in code or ";" in code):
            depth = None
    return "".join(out)


def main():
    names = mapping()
    count = 0
    for f in logic_files() + sorted(glob.glob("crates/*/src/**/*.rt", recursive=True)):
        if f.endswith(".antt"):
            old, new = turn_logic_file(f, names | FALLEN_TOGETHER.get(f, {}))
        else:
            old = open(f, encoding="utf-8").read()
            new = turn_source(old, names)
        if new != old:
            open(f, "w", encoding="utf-8").write(new)
            count += 1
    for name in sorted(names):
        print(name, names[name])
    print(f"{len(names)} names in {count} files")


if __name__ == "__main__":
    main()
