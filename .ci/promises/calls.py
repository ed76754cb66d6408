# The functions and constants of the sources, which names which; the wrong programs of the must-fail edits, and in which function each stands.
import glob
import os
import re
import sys

os.chdir(os.path.join(os.path.dirname(os.path.abspath(__file__)), "..", ".."))


def wrong_programs():
    """Of each wrong program, `crate/name`: its edit's path, the file of the crate that it changes, and the line of it. An edit holds one wrong program, or
    several, each in another function: every one begins with a line `# wrong: NAME`."""
    found = {}
    for path in sorted(glob.glob("crates/*/must-fail/*.edit")):
        crate, name = path.split("/")[1], None
        for line in open(path).read().splitlines():
            if line.startswith("# wrong: "):
                name = f"{crate}/{line[len('# wrong: '):]}"
                if name in found:
                    sys.exit(f"{name} is in two edits")
                found[name] = [path, None, None]
            elif line.startswith("file: "):
                found[name][1] = line[len("file: "):]
            elif line.startswith("old: "):
                found[name][2] = line[len("old: "):]
    return found


WRONG = wrong_programs()


def line_of(wrong):
    """The file that the wrong program changes, and the line of it."""
    return WRONG[wrong][1:]


def functions_of(path):
    """Name and text of each function and constant, in order; of what stands in an impl, each `pub fn`."""
    text = open(path).read()
    starts = [m for m in re.finditer(r'^(?:(?:pub )?(?:(?:extern "C" )?fn|const)|    pub fn) (\w+)', text, re.M)]
    ends = [m.start() for m in starts[1:]] + [len(text)]
    return [(m.group(1), text[m.start():end]) for m, end in zip(starts, ends)]


def imported(tree):
    """The names of one `use`, as `row::{add, sum as total}`: each with its path, and the name that it has here."""
    path, brace, inside = tree.strip().partition("{")
    if not brace:
        there, _, here = path.partition(" as ")
        return [(there.strip(), (here or there.split("::")[-1]).strip())] if there.strip() else []
    # the parts between the commas that stand in no further braces
    parts = re.findall(r"[^,{}]+(?:\{[^{}]*\})?", inside.rpartition("}")[0])
    return [(path.strip() + there, here) for part in parts for there, here in imported(part)]


class Calls:
    def __init__(self):
        self.text = {}
        self.imports = {}
        for path in sorted(glob.glob("crates/*/src/*.rt")):
            crate, file = path.split("/")[1], path.split("/")[3]
            # the names that the file imports from other crates, with the crate and the name there: `super`, `crate` and the crate's own modules are none
            used = [each for tree in re.findall(r"^(?:pub )?use ([^;]+);", open(path).read(), re.M) for each in imported(tree)]
            own = {here: (there.split("::")[0], there.split("::")[-1]) for there, here in used}
            self.imports[crate, file] = {here: there for here, there in own.items() if os.path.isdir(f"crates/{there[0]}")}
            for name, text in functions_of(path):
                self.text[crate, file, name] = text
        self.called = {f: self.calls(f) for f in self.text}

    def named(self, crate, name):
        return {f for f in self.text if f[0] == crate and f[2] == name}

    def calls(self, function):
        crate, file, _ = function
        code = "\n".join(line for line in self.text[function].splitlines() if not re.match(r"\s*(//|requires|ensures)", line))
        found = set()
        for first, name in re.findall(r"\b(?:(\w+)::)?(?:\w+::)*(\w+(?=\()|[A-Z][A-Z0-9_]+\b)", code):
            # by the crate's name, by a module of another crate, or as it was imported
            module = self.imports[crate, file].get(first, (first, ""))[0]
            found |= self.named(module, name) or self.named(*self.imports[crate, file].get(name, (crate, name)))
        return found

    def reached(self, crate, name):
        """All functions that run when this one does."""
        todo, seen = list(self.named(crate, name)), set()
        while todo:
            f = todo.pop()
            if f not in seen:
                seen.add(f)
                todo += self.called[f]
        return seen

    def runs(self, function, edit):
        """Whether what the edit changes is a part of the function, or of one that it calls; of a definition, whether its crate has such a function."""
        crate = edit.split("/")[0]
        file, old = line_of(edit)
        reached = self.reached(function.split("::")[0], function.split("::")[-1])
        if not file.startswith("src/"):
            return any(f[0] == crate for f in reached)
        return any(old in self.text[f] for f in reached if f[:2] == (crate, file[len("src/"):]))

    def is_own(self, function, edit):
        """Whether the line that the edit changes stands in the function itself, in its contract or its body."""
        crate, *modules, name = function.split("::")
        source = f"{modules[-1] if modules else 'lib'}.rt"
        file, old = line_of(edit)
        return edit.split("/")[0] == crate and file == f"src/{source}" and old in self.text.get((crate, source, name), "").split("\n}\n")[0]
