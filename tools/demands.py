#!/usr/bin/env python3
"""Turns crates/demands to what today's kit makes of a function.

    python3 tools/demands.py

Of a function f of a crate c the older kit made `Rattle.c.proofs.f.ended`; today's has it beside the contract, as
`Rattle.c.specs.contracts.f.ended`. `Reads.Asked`, `Reads.Learnt`, `Statement.statement` and `Met.met` stand where they stood.
Each file of crates/demands that names `f.ended` gets an import of the contracts of c: as `contracts` where the file names those of
one crate alone, else as `c_contracts`. A file that is turned already stays as it is.
"""
import pathlib
import re

TOP = pathlib.Path(__file__).resolve().parent.parent / "crates" / "demands"

FUNCTION = re.compile(r"^use Rattle\.(\w+)\.proofs\.([\w.]+)(?: as (\w+))?$")


def turn(text):
    lines = text.split("\n")
    at = {}
    for line in lines:
        m = FUNCTION.match(line)
        if m:
            crate, path, name = m.groups()
            at[name or path.split(".")[-1]] = (crate, path)
    code = [x for x in lines if not x.startswith("use ") and not x.lstrip().startswith("--")]
    named = [a for a in at if any(re.search(r"(?<![\w.])" + a + r"\.ended\b", x) for x in code)]
    crates = {at[a][0] for a in named}
    if not crates:
        return text
    module = {c: "contracts" if len(crates) == 1 else c + "_contracts" for c in crates}

    def ended(m):
        if m.group(1) not in named:
            return m.group(0)
        crate, path = at[m.group(1)]
        return f"{module[crate]}.{path}.ended"

    out, told = [], set()
    for line in lines:
        m = FUNCTION.match(line)
        if m and m.group(1) in crates and m.group(1) not in told:
            crate = m.group(1)
            told.add(crate)
            alias = "" if module[crate] == "contracts" else f" as {module[crate]}"
            out.append(f"use Rattle.{crate}.specs.contracts{alias}")
        if line.startswith("use ") or line.lstrip().startswith("--"):
            out.append(line)
        else:
            out.append(re.sub(r"(?<![\w.])(\w+)\.ended\b", ended, line))
    return "\n".join(out)


def main():
    for file in sorted(TOP.rglob("*.antt")):
        if "out" in file.relative_to(TOP).parts:
            continue
        text = file.read_text()
        new = turn(text)
        if new != text:
            file.write_text(new)
            print(file.relative_to(TOP))


if __name__ == "__main__":
    main()
