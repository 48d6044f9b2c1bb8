#!/usr/bin/env python3
"""Brings the names that this repository defines in specs/ and proofs/ to the kit's spelling: words and lemmas in snake case.

usage: python3 tools/respell.py [--list]      at the top of the repository, after the kit's own script

A name is ours where a file of crates/*/specs or crates/*/proofs declares it (a definition, a field, a constructor, a lemma, a `let`), and
no library does under the same spelling. Types and modules keep their capitals; functions of src/, strings and files keep their names; goals
of proofs are the checker's. --list prints the names, old and new, and changes nothing. It stops where two names would fall together.
"""
import os
import re
import sys

ROOT = "crates"
WORD = re.compile(r"[^\s(){}\[\].,;:\"`|\\]+")
MARKS = r"(?:(?:abbrev|unfoldable|pub|instance|private|ruleset)\s+)*"
TOP = re.compile(r"^" + MARKS + r"([^\s(){}\[\].,;:\"]+)\s*:(?!:)")
INNER = re.compile(r"^\s+" + MARKS + r"([^\s(){}\[\].,;:\"]+)\s*:(?!:)")
LET = re.compile(r"\blet\s+([^\s(){}\[\].,;:\"]+)\s*[:=]")
ALIAS = re.compile(r"\bas\s+([^\s(){}\[\].,;:\"]+)")
# Names that fall together with another, or with a word of the library, when respelled: what they become.
KNOWN = {"parts_of"}  # a field here, a definition of one proof there: no file has both
BY_HAND = {"first_by": "first_by_lem", "record_of": "record_of_lem", "or-else": "or_else_lem", "lookIn": "look_from"}


def files():
    for folder, dirs, names in os.walk(ROOT):
        dirs[:] = sorted(d for d in dirs if d not in ("out", "target"))
        for n in sorted(names):
            if n.endswith((".antt", ".rt")):
                yield os.path.join(folder, n)


def read(p):
    with open(p, encoding="utf-8") as f:
        return f.read()


def snake(name):
    if name in BY_HAND:
        return BY_HAND[name]
    head = name.split("-")[0]
    if head[:1].isupper():
        return name
    s = re.sub(r"(?<=[a-z0-9'])(?=[A-Z\u2124])", "_", name)
    s = "".join(c if c == "\u2124" else c.lower() for c in s)
    return s.replace("-", "_")


def is_goal(p):
    return p.endswith("/Proof.antt")


def imports(text):
    """(module, names) of each use line."""
    for m in re.finditer(r"^\s*(?:ghost\s+)?(?:pub\s+)?use\s+([^\s{;]+?)(?:\.\{([^}]*)\}|\s|;|$)", text, re.M):
        if m.group(2) is not None:
            yield m.group(1), [w.strip().split(" as ")[0].strip() for w in m.group(2).split(",") if w.strip()]


def survey():
    ours = {c for c in os.listdir(ROOT)}
    defined, library, where = set(), set(), {}
    for p in files():
        text = read(p)
        for module, names in imports(text):
            parts = module.split(".")
            own = parts[0] == "Rattle" and len(parts) > 1 and parts[1] in ours
            made = own and ((len(parts) > 4 and parts[-1] in ("Tie", "Statement", "Goals", "Given")) or "declared" in parts)
            if not own or made:
                library.update(names)
        if not p.endswith(".antt"):
            continue
        for line in text.splitlines():
            body = line.split("--")[0] if line.lstrip().startswith("--") else line
            if not body.strip():
                continue
            m = TOP.match(body) or INNER.match(body)
            if m:
                rest = body[m.end():]
                if is_goal(p) and (re.match(r"\s*tie\.", rest) or "statement" in rest):
                    library.add(m.group(1))
                else:
                    defined.add(m.group(1))
                    where.setdefault(m.group(1), p)
            for n in LET.findall(body):
                defined.add(n)
                where.setdefault(n, p)
    return defined, library, where


def plan():
    defined, library, where = survey()
    table = {}
    both = set()
    for n in sorted(defined):
        if not re.match(r"^[A-Za-z]", n):
            continue
        new = snake(n)
        if new == n:
            continue
        if n in library and n not in BY_HAND:
            both.add(n)
            continue
        table[n] = new
    # A lemma that would have its definition's name: the one with a dash is the lemma.
    for n in list(table):
        if "-" in n and any(m != n and "-" not in m and table[m] == table[n] for m in table):
            table[n] += "_lem"
    return table, both, defined, library, where


def clashes(table, defined, library):
    out = []
    by = {}
    for old, new in table.items():
        by.setdefault(new, []).append(old)
        if new in defined and new not in table and new not in KNOWN:
            out.append(f"{old} -> {new}: is there already")
        if new in library:
            out.append(f"{old} -> {new}: a library's")
    out += [f"{', '.join(v)} -> {k}: together" for k, v in by.items() if len(v) > 1]
    return out


def turn_code(text, table):
    return WORD.sub(lambda m: table.get(m.group(0), m.group(0)), text)


def turn_quoted(text, table):
    """In a comment or a page only what stands between backticks, as one name or a path of names."""
    return re.sub(r"`[^`\n]+`", lambda m: turn_code(m.group(0), table), text)


def turn_antt(text, table):
    out = []
    for line in text.split("\n"):
        at = line.find("--")
        if at >= 0 and (at == 0 or line[:at].isspace() or line[at - 1] == " ") and (at + 2 == len(line) or line[at + 2] in " -"):
            out.append(turn_code(line[:at], table) + turn_quoted(line[at:], table))
        else:
            out.append(turn_code(line, table))
    return "\n".join(out)


def turn_rt(text, table):
    out = []
    for line in text.split("\n"):
        at = line.find("//")
        code, said = (line, "") if at < 0 or '"' in line[:at] else (line[:at], line[at:])
        parts = re.split(r'("(?:[^"\\]|\\.)*")', code)
        out.append("".join(q if q.startswith('"') else turn_code(q, table) for q in parts) + turn_quoted(said, table))
    return "\n".join(out)


def main(argv):
    table, both, defined, library, where = plan()
    bad = clashes(table, defined, library)
    if argv == ["--list"]:
        for o, n in table.items():
            print(o, n)
        print("also a library's, left:", " ".join(sorted(both)), file=sys.stderr)
        for b in bad:
            print("clash:", b, file=sys.stderr)
        return 1 if bad else 0
    if bad:
        print("\n".join(bad), file=sys.stderr)
        return 1
    for p in files():
        old = read(p)
        new = turn_antt(old, table) if p.endswith(".antt") else turn_rt(old, table)
        if new != old:
            with open(p, "w", encoding="utf-8") as f:
                f.write(new)
    return 0


if __name__ == "__main__":
    raise SystemExit(main(sys.argv[1:]))
