#!/usr/bin/env python3
"""Writes the part "Calls, clauses and laws" of docs/PROOFS.md anew from the crates' sources.

    python3 docs/proofs_table.py

A call is a public function that its crate exports, a public method of an exported type, or a function of an exported
trait; its clauses are the names of its `ensures`. A law is a call with neither parameters nor a result. Each crate in
crates.txt has a section; a crate of tests alone has none.
"""

import pathlib
import re

ROOT = pathlib.Path(__file__).resolve().parent.parent
FN = re.compile(r"(?m)^( *)(pub fn|fn) (\w+)")
BLOCK = re.compile(r"(?m)^(?:pub )?(impl|trait)\b[^\n{]*\{")


def end_of_block(text, start):
    """The place behind the brace that closes the one at `start`."""
    depth = 0
    for place in range(start, len(text)):
        if text[place] == "{":
            depth += 1
        elif text[place] == "}":
            depth -= 1
            if depth == 0:
                return place + 1
    return len(text)


def without_comments(text):
    text = re.sub(r"(?s)#\[cfg\(test\)\]\s*mod \w+ \{.*", "", text)
    return re.sub(r"(?m)//.*$", "", text)


def signature_of(text, start):
    """The text of a function from its name to its body: clauses stand in braces, the body begins a line or ends one."""
    rest = text[start:]
    body = re.search(r"(?m)^ *\{|\{\}\s*$|;\s*$", rest)
    return rest[: body.end() if body else len(rest)]


def clauses_of(signature):
    names, single = [], False
    for match in re.finditer(r"(?m)^\s*ensures (?:(\w+) )?\{", signature):
        if match.group(1):
            names.append(match.group(1))
        else:
            single = True
    return names, single


def exported(crate):
    names = set()
    for name in ("lib.rt", "main.rt"):
        path = crate / "src" / name
        if path.exists():
            text = without_comments(path.read_text())
            for group in re.findall(r"(?s)pub use [^;{]*\{([^}]*)\}", text):
                names.update(part.strip().split(" as ")[-1] for part in group.split(",") if part.strip())
            names.update(re.findall(r"pub use [\w:]*::(\w+);", text))
    return names


def calls_of(crate):
    names = exported(crate)
    calls, laws = [], []
    for path in sorted((crate / "src").glob("*.rt")):
        if path.name in ("lib.rt", "main.rt", "tests.rt"):
            continue
        text = without_comments(path.read_text())
        blocks = []
        for block in BLOCK.finditer(text):
            head = text[block.start() : block.end()]
            of_trait = block.group(1) == "trait"
            if not of_trait and " for " in re.sub(r"<[^>]*>", "", head):
                owner = None
            else:
                owner = re.sub(r"<.*", "", re.sub(r"^(pub )?(impl|trait)(<[^>]*>)? ", "", head)).strip(" {").split(":")[0].split()[0]
            blocks.append((block.end() - 1, end_of_block(text, block.end() - 1), owner, of_trait))
        for found in FN.finditer(text):
            inside = [b for b in blocks if b[0] < found.start() < b[1]]
            name = found.group(3)
            signature = signature_of(text, found.start())
            if inside:
                owner, of_trait = inside[0][2], inside[0][3]
                if owner is None or owner not in names or (found.group(2) == "fn" and not of_trait):
                    continue
                name = f"{owner}::{name}"
            elif found.group(2) == "fn" or name not in names:
                continue
            clauses, single = clauses_of(signature)
            if re.match(r"\s*pub fn \w+\(\)\s*\n", signature):
                laws.append(name)
            elif clauses or single:
                said = ", ".join(f"`{c}`" for c in clauses)
                calls.append((name, said if clauses else "its one clause"))
    return calls, laws


def section(name):
    crate = ROOT / "crates" / name
    calls, laws = calls_of(crate)
    if not calls and not laws:
        return ""
    lines = [f"### `{name}`", ""]
    if calls:
        lines += ["| Call | Clauses |", "|---|---|"]
        lines += [f"| `{call}` | {said} |" for call, said in calls]
        lines.append("")
    if laws:
        lines += ["Laws: " + ", ".join(f"`{law}`" for law in laws) + ".", ""]
    edits = len(list((crate / "must-fail").glob("*.edit")))
    if edits:
        lines += [f"Edits that must be refused: {edits}.", ""]
    return "\n".join(lines) + "\n"


def main():
    crates = [line.split(":")[0] for line in (ROOT / "crates.txt").read_text().splitlines() if line and line[0] != "#"]
    path = ROOT / "docs" / "PROOFS.md"
    text = path.read_text()
    begin = text.index("## Calls, clauses and laws\n")
    end = text.index("## Worked rows\n")
    path.write_text(text[:begin] + "## Calls, clauses and laws\n\n" + "".join(section(c) for c in crates) + text[end:])


main()
