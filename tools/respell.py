#!/usr/bin/env python3
"""Brings this repository's own names to the spelling of today's Rattle, once, behind the kit's port.py.

usage: python3 tools/respell.py        at the top of a tree that port.py has just turned

Words are in snake case (takeRecord is take_record, took-none is took_none); a dash stays where it joins two names that stand by themselves
(length-splice). A law that would fall together with a definition gets _lem behind its name. Types, modules, variants, names of src/ and of the
libraries, goals that Rattle names, strings, inputs and outputs stay. Files specs/Contracts.antt are specs/Clauses.antt, since Rattle makes a
module specs.contracts.
"""

import os
import re
import subprocess

TOKEN = re.compile(r'[^\s(){}.;,@"«»\[\]`|]+')
QUIET = re.compile(r'"(?:[^"\\\n]|\\.)*"|(?<![^\s(){}.;,@"«»])--[^\n]*')
RUST_QUIET = re.compile(r'b?"(?:[^"\\\n]|\\.)*"|//[^\n]*')
DECLARED = re.compile(r"(?m)^ *(?:(?:abbrev|unfoldable|pub|data|record|ruleset) )*([^\s(){}.;,@\"]+)(?: [({][^\n]*?)? :(?= |$)(?! *goal\.| *tie\.)([^\n]*)")
CAMEL = re.compile(r"(?:^|[-_])[a-z][a-z0-9]*[A-Z]")
# declared beside a definition of the same words
BESIDE = {"is_open", "run_length", "same_kind", "goes_on"}
WHERE = {"is_open": ("register_reading", "register_calls"), "run_length": ("calls",), "same_kind": ("syntax", "validation"), "goes_on": ("validation",)}


def files(*endings):
    for folder, dirs, names in os.walk("crates"):
        dirs[:] = sorted(d for d in dirs if d != "out")
        for n in sorted(names):
            if n.endswith(endings):
                yield os.path.join(folder, n)


def read(path):
    with open(path, encoding="utf-8") as f:
        return f.read()


def snake(word):
    return re.sub(r"(?<=[a-z0-9])([A-Z])", lambda m: "_" + m.group(1).lower(), word)


def code(text):
    return QUIET.sub(" ", text)


def generated(path):
    """A proof that walks the code: its answers carry Rattle's own names."""
    return os.path.basename(path) in ("Proof.antt", "Answers.antt", "Invariants.antt")


def table():
    own, tokens, fixed = set(), set(), set()
    for path in files(".antt"):
        text = code(read(path))
        tokens |= set(TOKEN.findall(text))
        if os.sep + "+" in path:
            # a cycle's answers carry its functions' names before Rattle's own
            fixed |= set(re.findall(r"(?m)^([^\s(){}.;,]*-[^\s(){}.;,]*) :", text))
        for m in DECLARED.finditer(text):
            name, kind = m.group(1), m.group(2)
            if generated(path) and (" statement" in kind or "tie." in kind):
                fixed.add(name)
            elif not generated(path) or "-" in name or CAMEL.search(name):
                own.add(name)
        for m in re.finditer(r"(?m)^use (\S+?)(?:\.\{([^}]*)\})?(?: as .*)?$", text):
            if not m.group(1).startswith("Rattle.") or m.group(1).startswith("Rattle.std"):
                fixed |= set(TOKEN.findall(m.group(2) or ""))
        fixed |= set(re.findall(r"(?:tie|goal)\.([^\s(){}.;,]+)", text))
        # names that Rattle makes for the answers of a walk
        if os.path.basename(path) == "Proof.antt":
            fixed |= set(re.findall(r"(?m)^([^\s(){}.;,]+) : tie\.", text))
    rows, taken = {}, set(tokens)
    camel = sorted(t for t in tokens if CAMEL.search(t) and "-" not in t and t not in fixed)
    for t in camel:
        rows[t] = snake(t)
    taken |= set(rows.values())
    for t in sorted(own):
        if "-" not in t or t in fixed or not re.match(r"[a-zA-Z]", t):
            continue
        parts = ["get_or" if p == "getD" else snake(p) for p in t.split("-")]
        if parts[0] in DEFINED and "_".join(parts[1:]) in DEFINED:
            new = parts[0] + "-" + "_".join(parts[1:])
        else:
            new = ("-" if all(p in DEFINED for p in parts) else "_").join(parts)
        if new != t and new in taken:
            new += "_lem"
        if new in taken and new != t:
            raise SystemExit(f"respell: {t} has no name: {new} stands already")
        if new != t:
            rows[t] = new
            taken.add(new)
    return rows


def definitions():
    """The names of definitions, with those of the libraries that a dash may join."""
    found = set("length take drop set append replicate map concat min max natAbs get_or".split())
    for path in files(".antt"):
        for m in re.finditer(r"(?m)^ *(?:abbrev|unfoldable)(?: pub)? ([^\s(){}.;,]+)(?: [({][^\n]*?)? :", code(read(path))):
            found.add(snake(m.group(1)))
    return found


def turned(word, rows, path):
    crate = path.split(os.sep)[1] if path.startswith("crates") else ""
    if word in BESIDE and crate in WHERE[word]:
        return word + "_lem"
    return rows.get(word, word)


def turn(text, rows, path, quiet, comments):
    """The code turns; of a comment the words in camel case, and those in quotes of code."""
    out, at = [], 0
    for m in list(quiet.finditer(text)) + [None]:
        part = text[at : m.start() if m else len(text)]
        out.append(TOKEN.sub(lambda w: turned(w.group(), rows, path), part))
        if m:
            said = m.group()
            if comments and not said.lstrip("b").startswith('"'):
                said = TOKEN.sub(lambda w: rows[w.group()] if w.group() in rows and CAMEL.search(w.group()) else w.group(), said)
                said = re.sub(r"`([^`\n]+)`", lambda s: "`" + TOKEN.sub(lambda w: rows.get(w.group(), w.group()), s.group(1)) + "`", said)
            out.append(said)
            at = m.end()
    return "".join(out)


def main():
    global DEFINED
    DEFINED = definitions()
    rows = table()
    for path in sorted(p for p in files("Contracts.antt")):
        os.rename(path, path.replace("Contracts.antt", "Clauses.antt"))
    for path in files(".antt", ".rt", ".edit"):
        old = read(path)
        new = turn(old, rows, path, RUST_QUIET if path.endswith(".rt") else QUIET, True)
        new = re.sub(r"\.specs\.Contracts\b", ".specs.Clauses", new)
        new = re.sub(r"(?m)^(pub mod )Contracts$", r"\1Clauses", new)
        if new != old:
            with open(path, "w", encoding="utf-8") as f:
                f.write(new)
    with open("/tmp/respelled.tsv", "w", encoding="utf-8") as f:
        f.writelines(f"{a}\t{b}\n" for a, b in sorted(rows.items()))
    for name in sorted(os.listdir("crates")):
        if os.path.isdir(f"crates/{name}/src"):
            subprocess.run(["rt", "fmt"], cwd=f"crates/{name}", stdout=subprocess.DEVNULL, stderr=subprocess.DEVNULL)
    print(f"respell: {len(rows)} names; the table is /tmp/respelled.tsv")


if __name__ == "__main__":
    main()
