#!/usr/bin/env python3
"""Lists the places in crates/*/src that docs/DESIGN-PASS.md counts: python3 tools/places.py [COMMIT] [--list].

It goes by text. A place is a function, a type or a loop, named with its file and line; the working tree is read where no commit is named.
"""
import collections
import re
import subprocess
import sys

WORDS = [w for w in sys.argv[1:] if not w.startswith("--")]
LIST = "--list" in sys.argv


def git(*args):
    return subprocess.run(("git",) + args, capture_output=True, text=True, check=True).stdout


def files():
    """The path and the text of each source file."""
    if WORDS:
        names = git("ls-tree", "-r", "--name-only", WORDS[0], "crates").split()
        names = [n for n in names if re.fullmatch(r"crates/\w+/src/.*\.rt", n)]
        return [(n, git("show", f"{WORDS[0]}:{n}")) for n in names]
    names = git("ls-files", "crates/*/src/*.rt").split()
    return [(n, open(n, encoding="utf-8").read()) for n in names]


def closing(text, start):
    """Behind the brace that closes the one at `start`."""
    depth = 0
    for i in range(start, len(text)):
        depth += {"{": 1, "}": -1}.get(text[i], 0)
        if depth == 0:
            return i + 1
    return len(text)


def strip(text):
    """The text with each comment, text and byte literal blanked, the lines as they were."""
    blank = lambda m: re.sub(r"[^\n]", " ", m.group())
    text = re.sub(r"//[^\n]*", blank, text)
    return re.sub(r'b?"(?:\\.|[^"\\])*"|b\'(?:\\.|[^\'\\])\'', lambda m: '"' + blank(m)[2:] + '"', text)


Function = collections.namedtuple("Function", "place name public generics parameters answer clauses body")


def functions(path, text):
    found = []
    for m in re.finditer(r"(?m)^ *(pub )?(?:extern \"[^\"]*\" )?fn (\w+)(<[^>]*>)?\(", text):
        depth, i = 1, m.end()
        while depth:
            depth += {"(": 1, ")": -1}.get(text[i], 0)
            i += 1
        parameters = text[m.end() : i - 1]
        # The clauses stand in braces; the body is the block at the head of a line, or the last one of the line.
        answer = re.match(r"\s*(?:->\s*([^\n{]+?))?\s*(?=\n|\{)", text[i:])
        at, clauses = i + answer.end(), []
        while True:
            c = re.compile(r"\s*(requires|ensures|ghost)(?: \w+)?:?\s*\{").match(text, at)
            if not c:
                break
            end = closing(text, c.end() - 1)
            clauses.append((c.group(1), " ".join(text[c.end() : end - 1].split())))
            at = end
        b = re.compile(r"\s*\{").match(text, at)
        if not b:
            continue
        body = text[b.end() - 1 : closing(text, b.end() - 1)]
        line = text.count("\n", 0, m.start(2)) + 1
        found.append(Function(f"{path}:{line}", m.group(2), bool(m.group(1)), m.group(3) or "", " ".join(parameters.split()), answer.group(1) or "", clauses, body))
    return found


def split(parameters):
    """The parameters by name and type."""
    parts, depth, last = [], 0, 0
    for i, ch in enumerate(parameters + ","):
        depth += {"<": 1, "[": 1, "(": 1, ">": -1, "]": -1, ")": -1}.get(ch, 0)
        if ch == "," and depth == 0:
            parts.append(parameters[last:i].strip())
            last = i + 1
    return [tuple(x.strip() for x in p.split(":", 1)) for p in parts if ":" in p]


def loops(body):
    """The kind of each loop of a function's body that is no `for`."""
    for m in re.finditer(r"\b(while\b([^{]*)|loop )\{", body):
        inside = body[m.end() - 1 : closing(body, m.end() - 1)]
        condition = m.group(2) or ""
        counted = [v for v in re.findall(r"(\w+) [+-]= \w+", inside) if re.search(rf"\b{v}\b", condition)]
        if re.search(r"(\w+) = \1 & \(\1 - 1\)", inside) or re.search(r"(\w+) = rest\b", inside) and "!= 0" in condition:
            yield "set"
        elif counted:
            yield "index"
        else:
            yield "other"


def shape(f):
    """A function with its names, types and numbers taken out: twins have one shape."""
    text = f"{f.parameters} -> {f.answer} {f.body}"
    text = re.sub(r"\b(?:0x[0-9a-f_]+|\d[\d_]*)\b", "0", text)
    text = re.sub(r'"[^"]*"', "S", text)
    keep = {"if", "else", "while", "for", "let", "mut", "return", "match", "loop", "in"}
    names = {}
    return " ".join(t if t in keep or not re.match(r"\w", t) else "x" for t in re.findall(r"\w+|[^\w\s]", text))


places = collections.defaultdict(list)


def see(point, kind, place):
    places[point, kind].append(place)


everything = []
for path, text in files():
    text = strip(text)
    all_functions = functions(path, text)
    everything += all_functions
    line = lambda m: f"{path}:{text.count(chr(10), 0, m.start()) + 1}"
    for m in re.finditer(r"(?m)^(?:pub )?enum (\w+) \{", text):
        body = text[m.end() - 1 : closing(text, m.end() - 1)]
        cases = re.findall(r"(?m)^    (\w+)", body)
        refused = [c for c in cases if re.fullmatch(r"Refused?|Err", c)]
        if refused or len(cases) == 2 and len(re.findall(r"(?m)^    \w+,", body)) == 1:
            see(1, "an enum shaped as Option or Result", f"{line(m)} {m.group(1)}")
    for m in re.finditer(r"(?m)^(?:pub )?struct (\w+)(?:<[^>]*>)? \{", text):
        body = text[m.end() - 1 : closing(text, m.end() - 1)]
        fields = re.findall(r"(?m)^    (?:pub )?(\w+): ([^\n]+?),?$", body)
        if len(fields) > 1 and any(t in ("bool", "Check", "Outcome", "Answer", "Result<(), Refusal>") for _, t in fields):
            see(1, "a flag beside a value", f"{line(m)} {m.group(1)}")
    for f in all_functions:
        if re.search(r"refusal", f.name) and f.answer in ("u64", "usize") or re.search(r"\breturn 256\b|\bMALFORMED\b|=> 16,", f.body):
            see(1, "a number for a kind or a refusal", f"{f.place} {f.name}")
        elif re.search(r"\bown != 0\b", f.body):
            see(1, "a number for a kind or a refusal", f"{f.place} {f.name}")
        for kind in loops(f.body):
            if kind == "index":
                see(3, "a loop that counts an index", f"{f.place} {f.name}")
            if kind == "set":
                see(3, "a loop that takes the lowest vertex out of a set", f"{f.place} {f.name}")
        if re.search(r"\b(\w+)\[(\w+)\] = \w+\[\2\];", f.body):
            see(4, "a copy by index", f"{f.place} {f.name}")
        if re.search(r"\b(\w+)\[(\w+)\] != \w+\[\2\]", f.body) or re.fullmatch(r"(is|are)_same", f.name):
            see(4, "an equality by hand", f"{f.place} {f.name}")
        if not path.startswith("crates/mastpickle") and not re.match(r"print_|without_|word$", f.name) and re.fullmatch(r"(.*_)?(number|kind|set|words|values|told)|(mark|graph|page)_at|end_of|put_graph|next_mark|value_of|digit|wide", f.name) and len(split(f.parameters)) + ("self" in f.parameters) <= 2:
            see(4, "a conversion", f"{f.place} {f.name}")
        if re.fullmatch(r"(put|write)_(text|decimal|number|members|line|lines|group|largest|none|count|refusal|fault|records)", f.name):
            see(4, "printing by hand", f"{f.place} {f.name}")
        named = split(f.parameters)
        names = [n for n, _ in named]
        if "positive" in names and "negative" in names:
            see(5, "`positive` and `negative` as two parameters", f"{f.place} {f.name}")
        if len([n for n, t in named if t == "u64" and re.search(r"left|right|near|far", n)]) > 1:
            see(5, "two sides as two parameters or more", f"{f.place} {f.name}")
        if any(kind == "requires" and re.search(r"sound g(\.now)? ≡ true|\b(Known|Complete|Sided|Halved) g", c) for kind, c in f.clauses):
            see(5, "a `requires` that a graph is sound", f"{f.place} {f.name}")
        if re.search(r"\[\.\.\w+\]", f.body) and re.search(r"= \[[^;\]]+; \w+\]", f.body):
            see(6, "a buffer with its length beside it", f"{f.place} {f.name}")
        if re.search(r"&\[u8; MOST\]", f.parameters) and "count" in names:
            see(6, "a buffer with its length beside it", f"{f.place} {f.name}")
        if any(t == "bool" for _, t in named):
            see(7, "a flag that picks a step", f"{f.place} {f.name}")

# A fact that is required: its names taken out, so that `p < 64` and `q < 64` are one.
facts = collections.defaultdict(dict)
for f in everything:
    for kind, clause in f.clauses:
        if kind == "requires":
            for fact in re.split(r"\s*×\s*", clause):
                fact = fact.strip()
                fact = fact[1:-1] if fact.startswith("(") and closing(fact.replace("(", "{").replace(")", "}"), 0) == len(fact) else fact
                fact = re.sub(r"\b[a-z_]\w*(\.\w+)*\b(?! [a-z(])", "x", fact)
                facts[fact][f.place] = f.name
for fact, where in facts.items():
    if len(where) > 2:
        for place, name in where.items():
            if not fact.startswith("sound "):
                see(5, f"a fact that three contracts or more require: {fact}", f"{place} {name}")

by_shape = collections.defaultdict(list)
for f in everything:
    if len(f.body) > 60 and not f.place.startswith(("crates/mastpickle", "crates/guarantees", "crates/c_guarantees")):
        by_shape[shape(f)].append(f)
for twins in by_shape.values():
    if len(twins) > 1:
        for f in twins:
            see(2, "functions of one shape", f"{f.place} {f.name}")

for (point, kind), found in sorted(places.items()):
    print(f"{point}  {len(found):3}  {kind}")
    if LIST:
        for p in found:
            print(f"        {p}")
