#!/usr/bin/env python3
"""respell.py: brings the repository's own definitions and lemmas to the spelling of today's Rattle, once, at the top of the repository.

Words in snake case, types in upper camel case: closedBy and closed-by are closed_by, Comes-in is ComesIn. It goes by text: a name that specs/ or
proofs/ declare is turned wherever it stands as a whole word, in antt, in the clauses of .rt files, in code spans of pages, in the gate's lists.
Names that a function's proof gives to its goals stay; so does a name in a file that brings one of that spelling in from elsewhere.
APART names what would fall together. `respell.py --table` prints old and new names and writes nothing.
"""
import os
import re
import sys

WORD = r"[^\s(){}.;,@\"«»:`]+"
MARK = r"(?:(?:pattern|unfoldable|abbrev|pub|axiom)\s+)*"
SIGNED = re.compile(rf"^(\s*){MARK}({WORD})(?:\s*\{{[^}}\n]*\}})*\s*:\s(.*)$")
FORMED = re.compile(rf"^\s*(?:pub\s+)?(?:data|record)\s+({WORD})")
MADE = re.compile(r"^(?:tie|goal|need)\.|^\(?c : (?:tie|goal)\.")
QUIET = re.compile(r'"(?:[^"\\\n]|\\.)*"|(?<!\S)--[^\n]*|//[^\n]*')
TOKEN = re.compile(WORD)
USE = re.compile(r"\buse\s+([^\s;{]+)\{([^}]*)\}")

# Names that would fall together with another of the same place: old name to new.
APART = {
    "by_row": "by_row_lem",
    "one_more": "one_more_lem",
    "in_bounds": "in_bounds_lem",
    "same_ends": "same_ends_lem",
    "row_now": "row_now_lem",
    "going_on": "going_on_lem",
    "bit-or": "bit_or_lem",
    # a word of the proof language
    "ground": "run_ground",
}


def files(kinds, top="crates"):
    for folder, dirs, names in os.walk(top):
        dirs[:] = sorted(d for d in dirs if d not in ("out", ".git", "target"))
        for n in sorted(names):
            if n.endswith(kinds):
                yield os.path.join(folder, n)


def read(path):
    with open(path, encoding="utf-8") as f:
        return f.read()


def declared(text):
    """The names that a text declares, each with whether it is a type and with its line's type."""
    lines = text.split("\n")
    for i, line in enumerate(lines):
        if line.strip().startswith("--"):
            continue
        found = FORMED.match(line)
        if found:
            yield found.group(1), True, ""
            continue
        found = SIGNED.match(line)
        if not found or found.group(2) in ("use", "module", "where", "let"):
            continue
        indent, body, j = len(found.group(1)), found.group(3), i + 1
        while j < len(lines) and lines[j].strip() and len(lines[j]) - len(lines[j].lstrip()) > indent and not lines[j].strip().startswith("--"):
            body += " " + lines[j].strip()
            j += 1
        yield found.group(2), re.search(r"Type [01]$", body.strip()) is not None, body


def is_type_name(name):
    return name[0].isupper() and name[1:2] != "-" and not name.isupper()


def snake(name):
    name = re.sub(r"(?<=[a-z0-9])[A-Z]", lambda m: "_" + m[0].lower(), name)
    name = name.replace("-", "_")
    return name[0].lower() + name[1:] if len(name) > 1 and name[0].isupper() else name


def camel(name):
    return "".join(part[:1].upper() + part[1:] for part in name.split("-"))


def spelled(name):
    if name in APART:
        return APART[name]
    if not any(ch.isalpha() for ch in name) or len(name) == 1 or "◌" in name:
        return name
    if name.isupper() and name.isalnum() and len(name) < 3:
        return name
    return camel(name) if is_type_name(name) else snake(name)


def table():
    rows, plain = {}, set()
    for path in files((".antt",)):
        function = path.count("/") > 3 and "/proofs/" in path and path.split("/")[-1] in ("Proof.antt", "Answers.antt", "Invariants.antt")
        for name, _, body in declared(read(path)):
            if function and (MADE.search(body) or name in ("invariant-loop", "decreases-loop") or body.strip().endswith("statement M")):
                continue
            new = spelled(name)
            if new != name:
                rows[name] = new
            plain.add(name)
    # a lemma that would have a definition's name ends in _lem
    plain -= set(rows)
    words = {new for name, new in rows.items() if "-" not in name} | plain
    return {name: new + "_lem" if "-" in name and new in words and name not in APART else new for name, new in rows.items()}


def kept(text, rows):
    """Names that this file brings in from elsewhere than the repository: they stay here."""
    out = set()
    for path, items in USE.findall(text):
        own = path.startswith("Rattle.") and not re.match(r"Rattle\.(std|core|io|os|libc)\b", path) or path[0].islower() or path.split(".")[0] in ("package",)
        if path.split(".")[0] in ("mathlib", "native", "borrow", "lib", "mir", "base", "logic", "types", "denote", "Prim"):
            own = False
        if not own:
            for item in items.split(","):
                out.update(w for w in item.split() if w in rows)
    return out


def turned(text, rows):
    return TOKEN.sub(lambda m: rows.get(m[0], m[0]), text)


def turn_code(text, rows):
    here = {a: b for a, b in rows.items() if a not in kept(text, rows)}
    out, at = [], 0
    for quiet in QUIET.finditer(text):
        out.append(turned(text[at : quiet.start()], here))
        said = quiet[0]
        out.append(said if said.startswith('"') else re.sub(r"`[^`\n]+`", lambda m: turned(m[0], here), said))
        at = quiet.end()
    out.append(turned(text[at:], here))
    return "".join(out)


def turn_page(text, rows):
    return re.sub(r"`[^`\n]+`", lambda m: turned(m[0], rows), text)


def turn_edit(text, rows):
    return re.sub(r"(?m)^((?:old|new): )(.*)$", lambda m: m[1] + turned(m[2], rows), text)


def clashes(rows):
    for path in files((".antt", ".rt")):
        text = QUIET.sub(" ", read(path))
        words = set(TOKEN.findall(text))
        here = kept(text, rows)
        new = {}
        for w in words:
            n = w if w in here else rows.get(w, w)
            new.setdefault(n, set()).add(w)
        for n, olds in sorted(new.items()):
            if len(olds) > 1:
                print(f"together: {path}: {' and '.join(sorted(olds))} are {n}")


def main():
    rows = table()
    if "--table" in sys.argv:
        print("\n".join(f"{a}\t{b}" for a, b in sorted(rows.items())))
        clashes(rows)
        return
    for path in files((".antt", ".rt")):
        text = read(path)
        new = turn_code(text, rows)
        if new != text:
            with open(path, "w", encoding="utf-8") as f:
                f.write(new)
    for path in [*files((".md",), "docs"), *files((".edit",)), "README.md", "CONTRIBUTING.md"]:
        text = read(path)
        new = turn_edit(text, rows) if path.endswith(".edit") else turn_page(text, rows)
        if new != text:
            with open(path, "w", encoding="utf-8") as f:
                f.write(new)


if __name__ == "__main__":
    main()
