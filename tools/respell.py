#!/usr/bin/env python3
"""Brings the repository's own definitions and lemmas to the spelling of today's Rattle.

usage: python3 tools/respell.py          in the repository, once, on what the kit's port.py left

port.py turns the spelling of the language and of its library, and only some of our own names. This turns the others, in specs/, in proofs/
and in the clauses of src/: a definition, a lemma, a field, a constructor and a name below `where` are in snake case. A dash stays where it
joins two names, as in `all-append`; a plain word is added with an underscore, as in `first_end`; a lemma that would have a definition's name
gets `_lem`. Types keep their capital, and functions
of src/ their names. A name is turned where it is declared and where the module that declares it is imported, so that a name of the
library that is spelled as one of ours stays. It prints each name that it turned, and each place where two names would fall together.
Exit status: 0; 1 where two names fall together, and then nothing is written.
"""

import os
import re
import sys

STOP = r"\s(){}\[\].,;:|λ⌜⌝\"`«»"
TOKEN = re.compile(rf"[^{STOP}]+")
DECLARED = re.compile(
    r"^\s*(?:(?:abbrev|unfoldable|pub|mutual)\s+)*([^\s:(){},;.=]+(?:\s+[^\s:(){},;.=]+)*?)\s*(?:(?:\([^)]*\)|\{[^}]*\})\s*)*:(?=\s|$)"
)
WORDS = {"data", "record", "use", "module", "let", "in", "where", "open", "elim", "λ"}
# Words of the library that a lemma's name joins with a dash, as its own lemmas do.
LIBRARY = set("length take drop append cons nil map set get_or replicate reverse sum suc zero add sub mul div mod pow cond eqb ltb leb not and or".split())
# Names that would fall together with one of the library.
APART = {("captures.proofs.Turns", "after-turn"): "after_next"}


def paths(root):
    for folder, dirs, files in os.walk(os.path.join(root, "crates")):
        dirs[:] = sorted(d for d in dirs if d not in ("out", ".git"))
        for f in sorted(files):
            if f.endswith((".antt", ".rt")):
                yield os.path.join(folder, f)


def module_of(root, path):
    """CRATE.specs.M or CRATE.proofs.M of a file, below proofs/F with F among them; None of code."""
    parts = os.path.relpath(path, os.path.join(root, "crates"))[: -len(".antt")].split(os.sep)
    return ".".join(parts) if path.endswith(".antt") else None


def code_of(line):
    at = line.find("--")
    return (line, "") if at < 0 else (line[:at], line[at:])


def snake(name):
    return re.sub(r"(?<=[a-z0-9])(?=[A-Z])", "_", name).lower()


def turned(name, known, lemma):
    """The name as today's Rattle spells it."""
    if name[0].isupper() or not re.match(r"[A-Za-z]", name):
        return name
    parts = [snake(p) for p in name.split("-")]
    if not all(parts):
        return name
    out = parts[0]
    for i in range(1, len(parts)):
        joins = lemma and (parts[i] in known or "_".join(parts[i:]) in known)
        out += ("-" if joins else "_") + parts[i]
    return out


def declarations(text):
    """Each name that a file declares, with whether it may be a lemma, that is, no field and no constructor."""
    found = {}
    inside = None
    for raw in text.splitlines():
        line = code_of(raw)[0]
        if not line.strip():
            continue
        indent = len(line) - len(line.lstrip())
        if inside is not None and indent <= inside:
            inside = None
        head = re.match(r"\s*(?:(?:abbrev|unfoldable|pub)\s+)*(data|record)\s+\S+", line)
        if head:
            inside = indent
            continue
        if line.lstrip().startswith(("use ", "pub use ", "module ", "open ", "pub mod ", "mod ")):
            continue
        m = DECLARED.match(line)
        if m:
            names = m.group(1).split()
            if not any(n in WORDS for n in names):
                for n in names:
                    found[n] = inside is None
    return found


def uses(text, code):
    """The modules that a file imports by a line `use M.{a, b as c}`, with the names that it takes; `use M as m` gives the module's name."""
    taken, modules = [], {}
    word = r"ghost use" if code else r"(?:pub )?use"
    for m in re.finditer(rf"(?m)^\s*{word} Rattle\.([\w.+']+?)(?:\.\{{([^}}]*)\}}|(?: as (\S+?))?);?\s*$", text):
        if m.group(2) is not None:
            taken.append((m.group(1), [w.split(" as ")[0].strip() for w in m.group(2).split(",") if w.strip()]))
        else:
            modules[m.group(3) or m.group(1).split(".")[-1]] = m.group(1)
    return taken, modules


def main():
    root = os.getcwd()
    texts = {p: open(p, encoding="utf-8").read() for p in paths(root)}
    declared = {}
    for p, text in texts.items():
        module = module_of(root, p)
        # What stands below proofs/F is of one function's proof: its own names are left to that proof.
        if module and len(module.split(".")) == 3:
            declared[module] = declarations(text)
    # A definition that another module hands on by `pub use` has that module's name too.
    for p, text in texts.items():
        module = module_of(root, p)
        if module in declared:
            for m in re.finditer(r"(?m)^pub use Rattle\.([\w.]+)\.\{([^}]*)\}", text):
                for n in m.group(2).split(","):
                    n = n.strip()
                    if n in declared.get(m.group(1), {}):
                        declared[module].setdefault(n, declared[m.group(1)][n])
    definitions = {n for m, names in declared.items() if ".specs." in m for n, top in names.items() if top}
    known = LIBRARY | {snake(n) for n in definitions if "-" not in n}
    taken_names = {snake(n) for n in definitions}
    given_names = {snake(n) for n in definitions if snake(n) != n}

    def spelled(module, name, top):
        lemma = top and ".proofs." in module
        word = APART.get((module, name)) or turned(name, known, lemma)
        # A lemma that would have its function's name gets `_lem`, as in the library.
        return word + "_lem" if lemma and (word != name and word in taken_names or word in given_names) else word

    new = {m: {n: spelled(m, n, top) for n, top in names.items()} for m, names in declared.items()}
    # A field is named behind a dot, whoever declares its record.
    fields = {n: turned(n, known, False) for names in declared.values() for n, top in names.items() if not top}
    fields = {a: b for a, b in fields.items() if a != b}
    bad, done, written = [], set(), {}
    for m, names in new.items():
        seen = {}
        for a, b in names.items():
            if seen.setdefault(b, a) != a:
                bad.append(f"{m}: {seen[b]} and {a} would both be {b}")
            if a != b:
                done.add((m, a, b))
    for p, text in texts.items():
        code = p.endswith(".rt")
        module = module_of(root, p)
        taken, modules = uses(text, code)
        scope = {}
        for source, names in taken:
            for n in names:
                if n in new.get(source, {}):
                    scope[n] = new[source][n]
        scope.update(new.get(module, {}))
        moved = {a: b for a, b in scope.items() if a != b}
        owners = {}
        for a, b in list(scope.items()) + [(n, n) for _, names in taken for n in names if n not in scope]:
            if owners.setdefault(b, a) != a:
                bad.append(f"{os.path.relpath(p, root)}: {owners[b]} and {a} would both be {b}")
        # What stands behind a dot, or before one, is a path's or a field.
        bare = "\n".join(code_of(line)[0] for line in text.split("\n"))
        tokens = set() if code else {m.group(0) for m in TOKEN.finditer(bare) if "." not in (bare[m.start() - 1 : m.start()], bare[m.end() : m.end() + 1])}
        for a, b in moved.items():
            if b in tokens and b not in new.get(module, {}) and b not in scope:
                bad.append(f"{os.path.relpath(p, root)}: {a} would be {b}, which stands there already")

        def one(piece):
            def swap(m):
                w, before = m.group(0), piece[m.start() - 1 : m.start()]
                if before == ".":
                    owner = re.search(rf"([^{STOP}]+)\.$", piece[: m.start()])
                    if owner and owner.group(1) in modules:
                        return new.get(modules[owner.group(1)], {}).get(w, w)
                    return fields.get(w, w)
                return moved.get(w, w)

            return TOKEN.sub(swap, piece)

        if not code:
            out = []
            for raw in text.split("\n"):
                line, comment = code_of(raw)
                # In a comment a name stands between backticks, or has a capital inside, as no word of English has.
                comment = re.sub(r"`[^`]*`", lambda m: one(m.group(0)), comment)
                comment = TOKEN.sub(lambda m: moved.get(m.group(0), m.group(0)) if re.search(r"[a-z][A-Z]", m.group(0)) else m.group(0), comment)
                out.append(one(line) + comment)
            after = "\n".join(out)
        else:
            after = clauses(text, one, bad, os.path.relpath(p, root))
        after = others(after, code, bad, os.path.relpath(p, root))
        if after != text:
            written[p] = after
    for line in sorted(bad):
        print("falls together: " + line)
    if bad:
        return 1
    for p, after in written.items():
        with open(p, "w", encoding="utf-8") as f:
            f.write(after)
    for m, a, b in sorted(done):
        print(f"{m}: {a} -> {b}")
    return 0


def others(text, code, bad, where):
    """What still has a capital inside: names that a file gives an import by `as`, local names of a proof, and variables."""
    bare = "\n".join(code_of(line)[0] for line in text.split("\n"))
    # A field that is set to the variable of its name is no second name.
    stands = {m.group(0) for m in TOKEN.finditer(bare) if bare[m.start() - 1 : m.start()] != "." and not bare.startswith(" =", m.end())}

    def swap(m):
        w = m.group(0)
        if not re.fullmatch(r"[a-z]+[a-z0-9]*[A-Z][A-Za-z0-9]*", w) or re.fullmatch(r"x[0-9A-F]+", w) or m.string[m.start() - 1 : m.start()] == ".":
            return w
        if snake(w) in stands and not code:
            bad.append(f"{where}: {w} would be {snake(w)}, which stands there already")
        return snake(w)

    def one(piece):
        return TOKEN.sub(swap, piece)

    if code:
        return clauses(text, one, bad, where)
    return "\n".join("".join((one(line), comment)) for line, comment in map(code_of, text.split("\n")))


def clauses(text, one, bad, where):
    """The text of code with its clauses, its ghost members and its lines `ghost use` turned."""
    out, at = [], 0
    start = re.compile(r"(?m)^\s*(?:ghost use [^;]*;|(?:requires|ensures)\*?(?:\s+\w+)?\s*\{|ghost \w+\s*[:=]\s*\{)")
    params = re.compile(r"fn\s+\w+\s*(?:<[^>]*>)?\(([^)]*)\)")
    while True:
        m = start.search(text, at)
        if not m:
            break
        out.append(text[at : m.start()])
        end = m.end()
        if text[end - 1] == "{":
            depth = 1
            while depth:
                depth += {"{": 1, "}": -1}.get(text[end], 0)
                end += 1
        before = text[m.start() : end]
        after = one(before)
        if before.lstrip().startswith(("requires", "ensures")):
            heads = list(params.finditer(text, 0, m.start()))
            names = set(re.findall(r"(\w+)\s*:", heads[-1].group(1))) if heads else set()
            for a, b in zip(TOKEN.findall(before), TOKEN.findall(after)):
                if a != b and b in names:
                    bad.append(f"{where}: {a} would be {b}, a parameter's name: {before.strip()[:80]}")
        out.append(after)
        at = end
    return "".join(out) + text[at:]


if __name__ == "__main__":
    sys.exit(main())
