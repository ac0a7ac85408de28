#!/usr/bin/env python3
"""Respells the repository's own definitions and lemmas as today's Rattle has them: words in snake case, types in camel case.

usage: tools/respell.py [--look]     at the top of the repository, once, after the toolchain's own port script
--look only tells which names would fall together. Functions of src/, strings, inputs and outputs keep their names.
"""
import os
import re
import sys

TOKEN = re.compile(r"(?<![\w'?-])[A-Za-z_][A-Za-z0-9_'?-]*")
CAMEL = re.compile(r"[a-z][a-z0-9]*(?:[A-Z][a-z0-9]*)+'*\Z")
DECLARED = re.compile(r"^(?:(?:abbrev|unfoldable|opaque|pub|data|record) )*([^\s:(){},;.=|]+)(?: [^=]*?)? :(?: |$)")
BY_CODE = ("Proof.antt", "Answers.antt", "Invariants.antt")
# Lower-case names of types, and names that would fall together with another.
BY_HAND = {"is_at": "IsAt", "is-nothing": "IsNothing", "put-mid": "put_mid_lem", "goes_down": "brick_goes_down", "comes-up": "brick_comes_up", "no_line": "no_more_lines"}
WORDS = {"use", "mod", "let", "open", "module", "unfolding", "infixl", "infixr", "infix"}


def files(kinds):
    for folder, dirs, names in os.walk("crates"):
        dirs[:] = sorted(d for d in dirs if d not in ("out", ".git"))
        for name in sorted(names):
            if name.endswith(kinds):
                yield os.path.join(folder, name)


def pages():
    for folder, dirs, names in os.walk("docs"):
        for name in sorted(names):
            if name.endswith(".md"):
                yield os.path.join(folder, name)


def read(path):
    with open(path, encoding="utf-8") as f:
        return f.read()


def snake(name):
    return re.sub(r"(?<=[a-z0-9])([A-Z])", lambda m: "_" + m[1].lower(), name)


def split_up(text):
    """The text's pieces, each with whether it is code (no string)."""
    at = 0
    for m in re.finditer(r'b?"(?:\\.|[^"\\\n])*"', text):
        yield text[at : m.start()], True
        yield m[0], False
        at = m.end()
    yield text[at:], True


def declared(path):
    """The names that a file of specs/ or proofs/ declares itself, those inside its modules and its constructors too, without fields."""
    stack, out = [], []
    for line in read(path).split("\n"):
        line = re.sub(r"\s*--.*", "", line).rstrip()
        if not line:
            continue
        depth = len(line) - len(line.lstrip())
        while stack and depth <= stack[-1][0]:
            stack.pop()
        inner = line.strip()
        module = re.match(r"(?:pub |abbrev )*(?:module|data) ", inner) is not None
        m = DECLARED.match(inner)
        if m and m[1] not in WORDS and all(s[1] for s in stack):
            out.append(m[1])
        stack.append((depth, module))
    return out


def names():
    """New spellings: {old: new} of camel case, everywhere, and {file: {old: new}} of lemmas with dashes, by the file that declares them."""
    camel, spelled = {}, {}
    for path in files((".antt", ".rt")):
        for piece, code in split_up(read(path)):
            for t in TOKEN.findall(piece) if code else ():
                if CAMEL.match(t):
                    camel[t] = snake(t)
    functions, plain = set(camel.values()), {}
    for path in files((".antt",)):
        if os.path.basename(path) not in BY_CODE:
            plain[path] = declared(path)
    taken = functions | {x for xs in plain.values() for x in xs if "-" not in x}
    for path, xs in plain.items():
        for x in xs:
            if x in camel:
                continue
            new = BY_HAND.get(x) or (snake(x).replace("-", "_") if re.match(r"[a-z]", x) and "-" in x else x)
            # A lemma that would have its function's name, or another lemma's, gets `_lem`.
            if x not in BY_HAND and "/proofs/" in path and new in (taken if new != x else functions):
                new += "_lem"
            if new != x:
                spelled.setdefault(path, {})[x] = new
    return camel, spelled


def imports(path, text, spelled):
    """What a file calls by names of the repository's own that change: {old: new}."""
    out = dict(spelled.get(path, {}))
    for m in re.finditer(r"\buse Rattle\.(\w+)\.(specs|proofs)\.([\w.'+]+)\.\{([^}]*)\}", text):
        there = spelled.get(os.path.join("crates", m[1], m[2], m[3].replace(".", "/") + ".antt"), {})
        for x in m[4].split(","):
            x = x.split(" as ")[0].strip()
            if x in there:
                out[x] = there[x]
    return out


def turn(text, camel, others):
    out = []
    for piece, code in split_up(text):
        if code:
            def one(m):
                t = m[0]
                if t in camel:
                    return camel[t]
                if t in others and not (m.start() and piece[m.start() - 1] == "."):
                    return others[t]
                return t
            piece = TOKEN.sub(one, piece)
        out.append(piece)
    return "".join(out)


def main(argv):
    camel, spelled = names()
    turned = {}
    for path in files((".antt", ".rt", ".edit")):
        text = read(path)
        others = imports(path, text, spelled)
        there = set(TOKEN.findall(text))
        for t in sorted(there):
            new = camel.get(t) or others.get(t)
            if "--look" in argv and new and new in there:
                print(f"{path}: {t} beside {new}")
        turned[path] = turn(text, camel, others)
    all_names = {x: new for by in spelled.values() for x, new in by.items() if "-" in x}
    for path in pages():
        turned[path] = re.sub(r"`[^`\n]*`", lambda m: turn(m[0], camel, all_names), read(path))
    for path, new in turned.items() if "--look" not in argv else ():
        if new != read(path):
            with open(path, "w", encoding="utf-8") as f:
                f.write(new)
    print(len(camel), "names in camel case,", sum(map(len, spelled.values())), "others")


if __name__ == "__main__":
    main(sys.argv[1:])
