#!/usr/bin/env python3
"""Spells the repository's own definitions, lemmas and variables as Rattle's library does: words in snake case, types and facts in upper camel case.

    python3 tools/spelling.py [ROOT]        once, behind port.py; prints what fell together

Names that a file imports from a library, and names that Rattle makes in a function's proof, stay. It goes by text.
"""

import re
import sys
from pathlib import Path

NAME = r"[^\s(){}.;,@\"«»⌜⌝]+"
HYPHENED = re.compile(r"^[A-Za-zμ_][\w'′₀-₉-]*$")
HEAD = re.compile(r"^\s*(?:(?:abbrev|unfoldable)\s+)?(?:pub\s+)?(?:(?:record|data)\s+)?([A-Za-zμ][\w'-]*)\s*(?::|\(|\{)")
USE = re.compile(r"\buse\s+([^\s;{]+?)\.?\{([^}]*)\}")
# Names that would meet one that their file imports from a library.
OTHERWISE = {"bit-or": "bit_of_or", "bit-xor": "bit_of_xor"}
TOOL_MADE = re.compile(r"^(invariant|decreases|returns)(-|$)")


def respelled(name):
    if name in OTHERWISE:
        return OTHERWISE[name]
    if name[0].isupper():
        return "".join(p[0].upper() + p[1:] for p in re.split("[-_]", name) if p)
    return name.replace("-", "_")


def is_ours(path, crates):
    steps = path.split(".")
    return steps[0] == "Rattle" and len(steps) > 1 and steps[1] in crates


def declared(texts):
    """The names that the repository's .antt files declare, and which of these are fields."""
    names, fields = set(), set()
    for path, text in texts.items():
        if path.suffix != ".antt":
            continue
        of_function = path.name == "Proof.antt"
        for use_path, listed in USE.findall(text):
            names |= {n.split(" as ")[1].strip() for n in listed.split(",") if " as " in n and "-" in n.split(" as ")[1]}
        for line in text.split("\n"):
            if line.lstrip().startswith(("--", "use ", "pub use ", "let ")):
                continue
            found = HEAD.match(line)
            if not found:
                continue
            name = found[1]
            if of_function and (TOOL_MADE.match(name) or re.search(r":\s*tie\.", line)):
                continue
            names.add(name)
            if line.startswith(" "):
                fields.add(name)
    return names, fields


def imported_from_library(text, crates):
    names = set()
    for path, listed in USE.findall(text):
        if not is_ours(path, crates):
            names |= {n.split(" as ")[-1].strip() for n in listed.split(",")}
    return names


def turned(path, text, names, fields, crates):
    library = imported_from_library(text, crates)
    of_function = path.suffix == ".antt" and path.name == "Proof.antt"
    kept = {m[1] for line in text.split("\n") for m in [HEAD.match(line)] if of_function and m and (TOOL_MADE.match(m[1]) or re.search(r":\s*tie\.", line))}

    def word(match, line):
        name = match[0]
        if not (HYPHENED.match(name) and ("-" in name.strip("-") or (name[0].isupper() and "_" in name))):
            return name
        before = line[: match.start()]
        if re.search(r"[.]$", before):
            return respelled(name) if name in fields or (name in names and not of_function) else name
        if name in library or name in kept:
            return name
        if name in names:
            return respelled(name)
        if path.suffix == ".antt" and not name[0].isupper() and not (of_function and TOOL_MADE.match(name)):
            return respelled(name)
        return name

    out = []
    for line in text.split("\n"):
        mark = "--" if path.suffix == ".antt" else "//"
        code, comment = line, ""
        found = re.search(r"(^|\s)" + mark + r"(\s|$)", line)
        if found:
            code, comment = line[: found.start()], line[found.start():]
        use = re.search(r"\buse\s+([^\s;{]+?)\.?\{", code)
        if use and not is_ours(use[1], crates):
            out.append(line)
            continue
        code = re.sub(NAME, lambda m: word(m, code), code)
        comment = re.sub(r"`([^`]*)`", lambda m: "`" + re.sub(NAME, lambda n: respelled(n[0]) if n[0] in names and HYPHENED.match(n[0]) and ("-" in n[0] or (n[0][0].isupper() and "_" in n[0])) else n[0], m[1]) + "`", comment)
        out.append(code + comment)
    return "\n".join(out)


def main():
    root = Path(sys.argv[1] if len(sys.argv) > 1 else ".")
    crates = {p.name for p in (root / "crates").iterdir()}
    texts = {p: p.read_text(encoding="utf-8") for s in ("antt", "rt") for p in sorted((root / "crates").rglob(f"*.{s}")) if "out" not in p.relative_to(root).parts}
    # Rattle makes a module `specs.contracts`.
    for p in list(texts):
        if "Contracts" in p.relative_to(root).as_posix():
            to = root / p.relative_to(root).as_posix().replace("/Contracts", "/InnerContracts")
            to.parent.mkdir(parents=True, exist_ok=True)
            texts[to] = texts.pop(p)
            p.unlink()
    names, fields = declared(texts)
    for path, text in texts.items():
        text = re.sub(r"\b(specs|proofs)\.Contracts\b", r"\1.InnerContracts", text)
        text = re.sub(r"(?m)^((?:pub )?mod )Contracts$", r"\1InnerContracts", text)
        new = turned(path, text, names, fields, crates)
        words = set(re.findall(NAME, text))
        for old in sorted(w for w in words if w in names and respelled(w) != w):
            if respelled(old) in words:
                print(f"fell together: {path.relative_to(root)}: {old} and {respelled(old)}")
        path.write_text(new, encoding="utf-8")


if __name__ == "__main__":
    main()
