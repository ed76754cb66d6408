#!/usr/bin/env python3
"""answers.py CRATE..: turns a function's old Proof.antt, which walks the code, into today's Answers.antt and Invariants.antt.

For each crate NAME it asks `rt check --generated DIR --old-names` for the old and new names of goals, places and steps, and rewrites each
proofs/F/Proof.antt that it finds: a goal that was `search rules` goes (the check finds it), the others keep their terms, with `.before` steps
gone, since an answer sees each step by name. What it cannot tell stays as it was, and the check names it.
"""
import json
import os
import re
import subprocess
import sys
import tempfile

NAME = r"[^\s(){}.;,@\"«»:]+"
ATOM = r"(?:\((?:[^()]|\([^()]*\))*\)|[^\s(){};,]+)(?:\.[^\s(){};,.]+)*"
SEARCH = re.compile(r"^search rules$")


def norm(s):
    return s.replace("_", "-")


def clauses():
    """For each function, by crate::module::name, the names of its requires and of its ensures."""
    out = {}
    for folder, dirs, names in os.walk("crates"):
        dirs[:] = [d for d in dirs if d != "out"]
        for n in names:
            if not n.endswith(".rt"):
                continue
            path = os.path.join(folder, n)
            crate = path.split("/")[1]
            module = [] if n in ("lib.rt", "main.rt") else [n[:-3]]
            fn = None
            for line in open(path, encoding="utf-8"):
                found = re.match(r"\s*(?:pub(?:\(crate\))? )?(?:extern \"C\" )?fn (\w+)", line)
                if found:
                    fn = "::".join([crate, *module, found[1]])
                    out[fn] = {"requires": [], "ensures": []}
                found = re.match(r"\s*(requires|ensures)\s*(\w*)\s*\{", line)
                if found and fn:
                    out[fn][found[1]].append(found[2])
    return out


def blocks(text):
    """The text as blocks: each a comment, imports, or a declaration with its lines."""
    out, here = [], []
    for line in text.split("\n"):
        if not line.strip() and here:
            out.append("\n".join(here))
            here = []
        elif line.strip():
            here.append(line)
    if here:
        out.append("\n".join(here))
    return out


def unshadow(term, name):
    """A binder of a λ that has the name of a parameter gets another."""
    at = 0
    while True:
        found = re.compile(rf"λ {re.escape(name)}\.(?=\s)").search(term, at)
        if not found:
            return term
        depth, end = 0, found.end()
        while end < len(term) and depth >= 0:
            depth += {"(": 1, ")": -1}.get(term[end], 0)
            end += 1
        end = end - 1 if depth < 0 else end
        inner = re.sub(rf"(?<![\w.'-]){re.escape(name)}(?![\w'-])", name + "'", term[found.start() : end])
        term = term[: found.start()] + inner + term[end:]
        at = found.start() + 2


def named(term, names):
    """A tuple of as many parts as there are named clauses, at the end of a term, as a record of them."""
    if len(names) < 2:
        return term
    trimmed = term.rstrip()

    def whole():
        cut = trimmed.rfind(" in\n")
        head, tail = (trimmed[: cut + 4], trimmed[cut + 4 :].strip()) if cut >= 0 else ("", trimmed.strip())
        if re.match(r"(?:search|omega|cc|refl|rw|simp|elim|record|grind)\b", tail):
            return term
        fields = "; ".join(f"{n} = both.{i}" for i, n in enumerate(names))
        return f"{head}    let both = {tail} in record {{ {fields} }}"

    if not trimmed.endswith(")"):
        return whole()
    depth, i = 0, len(trimmed) - 1
    cuts = []
    while i >= 0:
        depth += {")": 1, "]": 1, "}": 1, "(": -1, "[": -1, "{": -1}.get(trimmed[i], 0)
        if depth == 0:
            break
        if depth == 1 and trimmed[i] == ",":
            cuts.append(i)
        i -= 1
    before = trimmed[:i].rstrip()
    if before and not before.endswith((" in", ".", "=")):
        return whole()
    parts, start = [], i + 1
    for cut in [*reversed(cuts), len(trimmed) - 1]:
        parts.append(trimmed[start:cut].strip())
        start = cut + 1
    parts = [p for p in parts if p]
    if len(parts) != len(names):
        return whole()
    return trimmed[:i] + "record { " + "; ".join(f"{n} = {p}" for n, p in zip(names, parts)) + " }"


class Function:
    def __init__(self, crate, path, made, known):
        self.crate, self.path, self.made, self.known = crate, path, made, known
        self.goals = {norm(a): b for a, b in made["needs"]}
        self.fields = {norm(p[2][0]): p[2][1] for p in made["places"] if p[2][0]}
        news = dict(zip((p[0] for p in made["places"]), made["places_by_name"]))
        # an arm's last place is the one that a proof names
        for a, b in list(news.items()):
            short = re.sub(r"-\d+$", "", b)
            if b.startswith("In-") and short in news.values():
                news[a] = short
        self.places = {norm(a): b for a, b in news.items()}
        self.parents = {news[p[0]]: news.get(p[1]) for p in made["places"]}
        self.callees = {p[2][1]: p[3] for p in made["places"] if p[3]}
        self.loops = {a: (b, vars) for (a, b), vars in made["loops"]}
        self.changed = dict(zip((a for (a, b), vars in made["loops"]), made["changed"]))
        # a handle that came in with the port is no variable of the old invariants
        for loop, (new, vars) in list(self.loops.items()):
            if "rt" in vars:
                at = vars.index("rt")
                self.loops[loop] = (new, vars[:at] + vars[at + 1 :])
                self.changed[loop] = self.changed[loop][:at] + self.changed[loop][at + 1 :]
        self.at = {b: norm(q) for (a, b), (_, q) in zip(made["needs"], made["asked_at"])}
        self.imports, self.helpers = set(), {}
        self.renamed = {b for a, b in news.items() if a != b}
        self.arms, self.within = [], set()
        for arm in made["arms"]:
            for new, old, way in (arm or [None, None, []])[2]:
                if way:
                    word = "[-_]".join(re.escape(w) for w in re.split("[-_]", old))
                    row = (word + "".join(rf"\." + re.escape(w) for w in way), f"{arm[0]}.{new}")
                    if row not in self.arms:
                        self.arms.append(row)
        self.arms.sort(key=lambda row: -len(row[0]))

    def fn(self):
        return "::".join([self.crate, *self.path])

    def place(self, old):
        name = self.places.get(norm(old))
        if name:
            self.imports.add(name)
        return name or "tie." + old

    def depth(self, a, b):
        n = 0
        while a and a != b:
            a, n = self.parents.get(a), n + 1
        return n if a else 0

    def back(self, a, b):
        """How many steps lead from what is seen at a to the place b."""
        k = self.depth(a, b)
        return k + 1 if k and a in self.renamed and not a.startswith("In-") else k

    def step(self, text):
        """The names of steps and clauses."""
        for old, new in self.arms:
            text = re.sub(rf"(?<=[\w)'])\.{old}(?![\w'-])", "." + new, text)

        def field(m):
            if re.search(r"\.(?:args|new|result|now|loop|initial|ensures|requires|answer)$", text[: m.start()]):
                return m[0]
            new = self.fields.get(norm(m[1])) or self.fields.get(norm(m[1].replace("_lem", ""))) or self.fields.get(norm(m[1].lower()))
            if new and re.search(r"-\d+$", new) and norm(m[1]) + "-1" == norm(new) and not text[m.end() :].startswith(".given"):
                return m[0]
            return "." + (new or m[1])

        text = re.sub(r"(?<=[\w)'₀-₉])\.([A-Za-z][\w'-]*)", field, text)
        text = re.sub(r"\.inv\b(?!ar)", ".invariant", text)
        for a, b in (("type-inv", "type_inv"), ("ghost-name", "ghost_name"), ("ref-ptr", "ref_ptr"), ("pre", "requires")):
            text = re.sub(rf"\.{a}(?![\w-])", "." + b, text)
        own = self.known.get(self.fn(), {"requires": []})["requires"]
        if len(own) > 1:
            text = re.sub(r"\.requires\.(\d)", lambda m: ".requires." + own[int(m[1])] if int(m[1]) < len(own) else m[0], text)
        for field_, callee in self.callees.items():
            params = [p for p in self.made["params"].get(callee, []) if p != "rt"]
            def moved(m):
                n = m[3].count("1")
                return f".{field_}.{'auto' if m[2] == 'kept' else m[2]}." + params[n] if n < len(params) else m[0]
            text = re.sub(rf"(\.{re.escape(field_)})\.(new|auto|kept)\.((?:1\.)*0)(?![\w.])", moved, text)
            for kind in ("ensures",):
                names = self.known.get(callee, {kind: []})[kind]
                if len(names) > 1:
                    text = re.sub(rf"(\.{re.escape(field_)}\.{kind})\.(\d)", lambda m: m[1] + "." + names[int(m[2])] if int(m[2]) < len(names) else m[0], text)
        return text

    def flat(self, text):
        return re.sub(r"(?:\.before)+(?![\w-])", "", text)

    def helped(self, text, goal, place, me="c"):
        """Calls of helpers that take a place."""
        for name, (p, keeps) in self.helpers.items():
            def call(m):
                if goal:
                    return f"{name} (goal.at.{goal} c).{p}"
                return f"{name} {me}" + ".before" * self.back(place, p)
            text = re.sub(rf"(?<![\w.'-]){re.escape(name)} (?!=)({ATOM})", call, text)
        return text


def convert(crate, folder, made, known):
    text = open(os.path.join(folder, "Proof.antt"), encoding="utf-8").read()
    inner = folder.split("/proofs/")[1].split("/")
    f = Function(crate, inner, made, known)
    module = f"Rattle.{crate}.proofs.{'.'.join(inner)}"
    head, answers, invariants, uses = [], [], [], []
    parsed = []
    for block in blocks(text):
        lines = block.split("\n")
        while lines and (lines[0].startswith("--") or lines[0].startswith("use ")):
            line = lines.pop(0)
            if line.startswith("use "):
                uses.append(line)
            elif not parsed and not uses:
                head.append(line)
            else:
                parsed.append(("comment", line))
        if lines:
            parsed.append(("decl", lines))
    # accessors that only walk back
    accessors = set()
    for kind, lines in [*parsed, *parsed]:
        if kind == "decl":
            m = re.match(rf"(?:abbrev )?(?:pub )?({NAME}) : tie\.\S+ (?:invariant-loop decreases-loop )?→ tie\.\S+", lines[0])
            ways = "|".join(re.escape(a) + " " for a in accessors) or "(?!)"
            if m and re.match(rf"{re.escape(m[1])} (\w+) = \1(?:\.before)*$", " ".join(l.strip() for l in lines[1:])):
                accessors.add(m[1])
            if m and re.match(rf"{re.escape(m[1])} c = (?:(?:{ways})?c(\.before)*|\((?:{ways})c(\.before)*\)(\.before)*)$", " ".join(l.strip() for l in lines[1:])):
                accessors.add(m[1])
    def plain(s):
        for a in accessors:
            s = re.sub(rf"\({re.escape(a)} ({ATOM})\)", r"\1", s)
            s = re.sub(rf"(?<![\w.'-]){re.escape(a)} ({ATOM})", r"\1", s)
        return s
    # a datum and its equation under one name
    def given(text):
        while True:
            m = re.search(r"let (\w+) = ([\w.'-]+\.given) in\s*", text)
            if not m:
                return text
            text = text[: m.start()] + text[m.end() :]
            text = re.sub(rf"(?<![\w.'-]){m[1]}(?=\.)", lambda _: m[2], text)
    def clause(text):
        for m in list(re.finditer(r"let (\w+) = ([\w.'-]+\.ensures) in\s*", text)):
            if re.search(rf"(?<![\w.'-]){m[1]}\.\d", text):
                text = text.replace(m[0], "", 1)
                text = re.sub(rf"(?<![\w.'-]){m[1]}(?![\w'-])", lambda _: m[2], text)
        return text
    def apart(text):
        """let (a, b) = x.f.ensures, where f has named clauses."""
        def one(m):
            fields = re.findall(r"[\w-]+", m[2])
            step = f.fields.get(norm(m[2].split(".")[-2]), m[2].split(".")[-2])
            names_ = known.get(f.callees.get(step, ""), {"ensures": []})["ensures"]
            parts_ = [p.strip() for p in m[1].split(",")]
            if len(names_) != len(parts_) or len(names_) < 2:
                return m[0]
            return " ".join(f"let {p} = {m[2]}.{n} in" for p, n in zip(parts_, names_))
        return re.sub(r"let \(([\w, ]+)\) = ([\w.'-]+\.ensures) in", one, text)
    parsed = [(k, apart("\n".join(b)).split("\n") if k == "decl" else b) for k, b in parsed]
    parsed = [(k, clause("\n".join(b)).split("\n") if k == "decl" else b) for k, b in parsed]
    parsed = [(k, [*given("\n".join(b)).split("\n")] if k == "decl" else b) for k, b in parsed]
    # helpers' places first
    inside = None
    for kind, lines in parsed:
        if kind != "decl":
            continue
        m = re.match(r"module _ \((\w+) : tie\.([\w-]+)(?: invariant-loop decreases-loop)?\) where", lines[0])
        if m:
            inside = f.places.get(norm(m[2]), m[2])
        elif not lines[0].startswith("  "):
            inside = None
        if inside:
            for line in lines:
                m = re.match(rf"  (?:abbrev )?(?:pub )?({NAME}) : ", line)
                if m:
                    f.helpers[m[1]] = (inside, True)
                    f.within.add(m[1])
    for kind, lines in parsed:
        if kind != "decl":
            continue
        m = re.match(rf"(?:abbrev )?(?:pub )?({NAME}) : (?:\(\w+ : )?tie\.([\w-]+)", lines[0])
        if m and m[1] not in accessors and not m[2].startswith(("Need-", "invariant", "decreases")):
            f.helpers[m[1]] = (f.places.get(norm(m[2]), m[2]), True)
    # a helper that looks at the arguments alone is over the start
    for kind, lines in parsed:
        m = kind == "decl" and re.match(rf"(?:abbrev )?(?:pub )?({NAME}) : (\((\w+) : )?tie\.([\w-]+)", lines[0])
        if not m or m[1] not in f.helpers or m[1] in f.within or f.helpers[m[1]][0] == "Start":
            continue
        seen = f.flat(plain("\n".join(lines)))
        me = m[3] or (re.search(rf"^{re.escape(m[1])} (\w+)", "\n".join(lines[1:]), re.M) or [None, "c"])[1]
        if set(re.findall(rf"(?<![\w.'-]){me}\.([\w-]+)", seen)) <= {"args", "requires", "pre"} and not re.search(rf"(?<![\w.'-]){me}(?![\w.'-])", re.sub(rf"\({me} :|^{re.escape(m[1])} {me}|^λ {me}", "", "\n".join(seen.split("\n")), flags=re.M)):
            f.helpers[m[1]] = ("Start", True)
            lines[0] = lines[0].replace("tie." + m[4], "tie.Start", 1)
    invariant_text = "\n".join("\n".join(lines) for kind, lines in parsed if kind == "decl" and re.match(r"abbrev (?:invariant|decreases)-", lines[0]))
    shared, where = [], None
    pending = []
    for kind, lines in parsed:
        if kind == "comment":
            pending.append(lines)
            continue
        first = lines[0]
        m = re.match(rf"(?:abbrev )?(?:pub )?({NAME}) :\s*(.*)$", first)
        name = m[1] if m else None
        sig = m[2] if m else ""
        whole = " ".join(l.strip() for l in lines)
        if name in accessors or "statement M" in whole.split("=")[0]:
            pending = []
            continue
        if name and (sig.startswith("tie.invariant") or sig.startswith("tie.decreases")):
            old = re.match(r"(?:invariant|decreases)-([\w-]+)", name)[1]
            what = name.split("-")[0]
            new, vars = f.loops.get(old, next(iter(f.loops.values()), (old, [])))
            changed = f.changed.get(old, next(iter(f.changed.values()), []))
            body = "\n".join(lines[1:])
            mm = re.match(rf"\s*{re.escape(name)}((?: [^\s=]+)*) =\s*(.*)$", body, re.S)
            unfolding = ""
            if not mm:
                u = re.match(r"(unfolding [^\n]*)\n(.*)$", body, re.S)
                if u:
                    unfolding, body = u[1] + "\n", u[2]
                    mm = re.match(rf"\s*{re.escape(name)}((?: [^\s=]+)*) =\s*(.*)$", body, re.S)
            params = mm[1].split() if mm else []
            term = mm[2] if mm else body
            to = {}
            for i, p in enumerate(params):
                if i < len(vars):
                    to[p] = f"l.initial.{vars[i]}" if changed and changed[i] else f"l.{vars[i]}"
                else:
                    cur = [v for v, ch in zip(vars, changed) if ch]
                    to[p] = f"l.{cur[i - len(vars)]}" if i - len(vars) < len(cur) else p
            for p in to:
                term = unshadow(term, p)
            term = re.sub(rf"(?<![\w.'₀-])([^\s(){{}}.;,@\"«»:]+)", lambda m: to.get(m[1], m[1]), term)
            invariants += [*pending, f"abbrev pub {what}-{new} : goal.{what}-{new}\n{unfolding}{what}-{new} l =\n    {term}".replace("=\n    ", "= " if "\n" not in term else "=\n    ", 1), ""]
            pending = []
            continue
        need = re.match(r"tie\.Need-(\S+)", sig)
        if need:
            key = norm(need[1])
            key = key[len("overflow-"):] if key.startswith("overflow-") and key not in f.goals else key
            goal = f.goals.get(key) or f.goals.get(key.replace("slice-bounds-", "part-"))
            rest = "\n".join(lines[1:])
            u = re.match(r"(unfolding [^\n]*)\n(.*)$", rest, re.S)
            unfolding = u[1] + "\n" if u else ""
            rest = u[2] if u else rest
            mm = re.match(rf"\s*{re.escape(name)}((?: [^\s=]+)*) =(\s*)(.*)$", rest, re.S)
            params, space, term = (mm[1].split(), mm[2], mm[3]) if mm else (["c"], " ", rest)
            if goal and not unfolding and SEARCH.match(term.strip()):
                pending = []
                continue
            if not goal:
                # no such goal today: the check has its own, and names it where it stays open
                pending = []
                continue
            params = [p for p in params if p != "κs"]
            term = f.step(plain(term))
            # a test of !x says what it says of x
            term = re.sub(r"not-(?:true|false) _ ([a-z][\w.'-]*\.(?:true|false))(?![\w-])", r"\1", term)
            term = re.sub(r"\.in_default\.(rest|keys\d)", r".in_default.in_default-own.\1", term)
            term = term.replace("read (record", "read {w = w64} (record") if "w64" in text else term
            term = f.helped(term, goal, None)
            term = f.flat(term)
            g = goal or "TODO-" + need[1]
            if g.startswith("returns"):
                term = named(term, known.get(f.fn(), {"ensures": []})["ensures"])
            asked = re.match(r"(\w+)(?:-[\w-]+)?-requires(?:-\d+)?$", g)
            if asked:
                for callee in f.made["params"]:
                    if callee.split("::")[-1] == asked[1]:
                        term = named(term, known.get(callee, {"requires": []})["requires"])
            answers += [*pending, f"pub {g} : goal.{g}\n{unfolding}{g} {' '.join(params)} ={space}{term}", ""]
            pending = []
            continue
        # a helper, of the invariants or of the answers
        if name and "tie." not in whole and re.search(rf"(?<![\w.'-]){re.escape(name)}(?![\w'-])", invariant_text):
            shown = re.sub(rf"^((?:abbrev )?)(?:pub )?{re.escape(name)} :", rf"\1pub {name} :", lines[0])
            invariants[:0] = [*pending, "\n".join([shown, *lines[1:]]), ""]
            shared.append(name)
            pending = []
            continue
        body = plain("\n".join(lines))
        body = body.replace(" invariant-loop decreases-loop", "")
        body = f.step(body)
        body = re.sub(r"\.in_default\.(rest|keys\d)", r".in_default.in_default-own.\1", body)
        body = body.replace("read (record", "read {w = w64} (record") if "w64" in text else body
        body = re.sub(r"not-(?:true|false) _ ([a-z][\w.'-]*\.(?:true|false))(?![\w-])", r"\1", body)
        mine = f.helpers.get(name, (None,))[0]
        body = f.helped_not_self(body, name, mine) if hasattr(f, "helped_not_self") else body
        body = re.sub(r"tie\.([A-Z][\w-]*)", lambda m: f.place(m[1]), body)
        if lines[0].startswith(("module", "  ")):
            mod = re.match(r"module _ \((\w+) : ([^()]+)\) where", body)
            where = mod[2] if mod else where
            def walk(m):
                k = f.back(where, m[3]) if where else 0
                return f"{m[1]} : {m[3]}\n  {m[1]} = c" + ".before" * k if k else m[0]
            body = re.sub(rf"({NAME}) : (([\w-]+))\n  \1 = c(?:\.before)+$", walk, body, flags=re.M)
        elif mine:
            saved = dict(f.helpers)
            f.helpers.pop(name)
            me = re.match(rf"(?:abbrev )?(?:pub )?{re.escape(name)} : \((\w+) :", lines[0])
            me = me or re.search(rf"^{re.escape(name)} (\w+)", "\n".join(lines[1:]), re.M)
            me = me[1] if me else "c"
            body = f.helped(body, None, mine, me)
            f.helpers = saved
            # c.before.x is c.x, but a bare place keeps its way
            body = re.sub(rf"(\b{me}(?:\.before)+)(?=\.)(?!\.before)", me, body)
        answers += [*pending, body, ""]
        pending = []
    body = "\n".join(answers)
    def used(word, where):
        return re.search(rf"(?<![\w.'-]){re.escape(word)}(?![\w'-])", where)
    def keep(where):
        out = []
        for use in uses:
            if "Statement.{statement}" in use or " as tie" in use:
                continue
            m = re.match(r"use (\S+)\.\{([^}]*)\}$", use)
            if not m:
                out.append(use)
                continue
            items = [i.strip() for i in m[2].split(",")]
            left = [i for i in items if used(i.split(" as ")[-1], where) or "◌" in i and all(part in where for part in i.replace("◌", " ").split()) or i in where]
            if left:
                out.append(f"use {m[1]}.{{{', '.join(left)}}}")
        return out
    for p, _ in f.helpers.values():
        if re.search(rf"\)\.{re.escape(p)}(?![\w-])", body) and p not in f.imports and p in f.parents:
            f.imports.add(p)
    os.remove(os.path.join(folder, "Proof.antt"))
    if any(a.strip() for a in answers):
        places = sorted(f.imports)
        lines = [*head[:1], *keep(body), f"use {module}.Goals as goal"]
        shared = [n for n in shared if used(n, body)]
        if shared:
            lines.append(f"use {module}.Invariants.{{{', '.join(shared)}}}")
        if places:
            lines.append(f"use {module}.Goals.{{{', '.join(places)}}}")
        open(os.path.join(folder, "Answers.antt"), "w", encoding="utf-8").write("\n".join(lines) + "\n\n" + body.strip() + "\n")
    if invariants:
        inv = "\n".join(invariants)
        lines = [*head[:1], *keep(inv), f"use {module}.Given as goal"]
        open(os.path.join(folder, "Invariants.antt"), "w", encoding="utf-8").write("\n".join(lines) + "\n\n" + inv.strip() + "\n")
    if not os.listdir(folder):
        os.rmdir(folder)


def main():
    known = clauses()
    top = os.getcwd()
    for crate in sys.argv[1:]:
        with tempfile.TemporaryDirectory() as room:
            subprocess.run(["rt", "check", "--generated", room, "--old-names"], cwd=f"crates/{crate}", capture_output=True, text=True)
            with open(os.path.join(room, "names.json"), encoding="utf-8") as names:
                made = json.load(names)
        for folder, _, names in sorted(os.walk(f"crates/{crate}/proofs")):
            if "Proof.antt" not in names:
                continue
            inner = folder.split("/proofs/")[1].replace("/", ".")
            key = f"Rattle-{crate}-proofs.{inner}.Lts"
            if key not in made and "+" in inner:
                key += "-" + inner.split("+")[-1]
            if key not in made:
                print("no names for", folder, [k for k in made if inner.split(".")[-1] in k][:3])
                continue
            convert(crate, folder, made[key], known)
            print("turned", folder)
        os.chdir(top)


if __name__ == "__main__":
    main()
