#!/usr/bin/env python3
"""Spells the repository's own definitions and lemmas in snake case, once, on what the toolchain's port.py wrote.

usage: respell_names.py LANDED_FOLDER [--rows FILE]      at the top of the repository

LANDED_FOLDER holds the tree before the port. A name that this repository declares in specs/ or in a lemma file of
proofs/ turns: `withBoard` to `with_board`, `every-list` to `every_list`, the type `Case-holds` to `CaseHolds`. A lemma
that would get the name of a definition gets `_lem` behind it. A name of the toolchain's libraries stays; so do module
paths, and the names that Rattle makes in proofs of functions, but for `f-spec`, which becomes `f_spec`.
In src/ the clauses, `ghost use` items and code spans of comments turn. --rows writes the table, old and new, for the pages.
"""
import collections
import os
import re
import sys

KIT = "/opt/rattle/rattle"
TOKEN = re.compile(r"[^\s(){}\[\].;,\"«»|⌜⌝⟦⟧λ↦=:`]+")
DECLARED = re.compile(
    r"^\s*(?:(?:abbrev|unfoldable|pub|private|record|data|field|constructor|axiom)\s+)*([^\s(){};,]+)"
    r"(?:\s+\{[^{}\n]*\}|\s+\([^()\n]*\))*\s*(?::|=|$|where|\{)"
)
MADE = re.compile(r"^(Need|After|At|In|Live|Entry|Args)-")
GHOST = re.compile(
    r"ghost\s+use\b[^;]*;|(?:requires|ensures)\s*\*?\s*(?:\w+\s*)?\{|ghost\s*(?:\w+\s*(?::\s*)?|=\s*)?\{|ghost\s+\w+\s*:\s*\{"
)


def antt_files(root):
    for folder, dirs, names in os.walk(root):
        dirs[:] = sorted(d for d in dirs if d not in ("out", ".git", "target"))
        for name in sorted(names):
            if name.endswith(".antt"):
                yield os.path.join(folder, name)


def code(line):
    m = re.search(r"(^|\s)--(\s|$)", line)
    return line[: m.start()] if m else line


def lines(path):
    with open(path, encoding="utf-8") as f:
        return f.read().split("\n")


def of_a_function(path):
    return "/proofs/" in path and os.path.basename(path) in ("Proof.antt", "Answers.antt", "Invariants.antt")


def words(root):
    found = collections.defaultdict(set)
    for path in antt_files(root):
        for line in lines(path):
            for m in TOKEN.finditer(code(line)):
                found[m[0]].add(path)
    return found


def declared(root):
    found = set()
    for path in antt_files(root):
        if of_a_function(path):
            continue
        for line in lines(path):
            line = code(line)
            m = DECLARED.match(line)
            if m:
                found.add(m[1])
            found.update(re.findall(r"\bas ([^\s;{},]+)", line))
    return found


def is_camel(name):
    return bool(re.search(r"[a-z0-9][A-Z]", name)) and "-" not in name and not name[0].isupper()


def is_dashed(name):
    return bool(re.search(r"[A-Za-z0-9_]-[A-Za-z0-9_]", name))


def snake(name):
    if name[0].isupper() and "-" in name and name.index("-") > 1:
        head, *rest = name.split("-")
        return head + "".join(it[:1].upper() + it[1:] for it in rest)
    turned = re.sub(r"(?<=[a-z0-9])([A-Z])(?=[a-z0-9])", lambda m: "_" + m[1].lower(), name)
    turned = re.sub(r"(?<=[a-z0-9])([A-Z])", lambda m: "_" + m[1], turned)
    return turned.replace("-", "_")


def table(landed, root):
    kit = words(KIT)
    old = {n for n in declared(os.path.join(landed, "crates")) if not MADE.match(n)}
    now = declared(os.path.join(root, "crates"))
    camels = {snake(n): n for n in old if is_camel(n)}
    rows = {}
    for name in sorted(now):
        if MADE.match(name):
            continue
        if is_camel(name) and name not in kit:
            rows[name] = snake(name)
        elif is_dashed(name) and name not in kit and not name[0].isupper():
            new = snake(name)
            rows[name] = new + "_lem" if new in camels or new in now and new not in rows.values() else new
        elif is_dashed(name) and name not in kit:
            rows[name] = snake(name)
        elif name in camels and camels[name] in now and name not in kit:
            # port.py turned the lemma, and the definition is still to come
            rows[name] = name + "_lem"
    return rows


def turn(text, rows, path, aliases=()):
    """The text of antt with each word of rows turned, but for the segments of a module's path."""

    def word(m):
        new = rows.get(m[0])
        if new is None:
            return m[0]
        before, after = text[: m.start()], text[m.end() :]
        # a segment of a whole module name
        head = re.search(r"[^\s(){},;]*$", before)[0]
        if head.startswith("Rattle.") or after.startswith(".") and head == "Rattle.":
            return m[0]
        if new.endswith("_lem") and head.endswith(".") and head[:-1] not in aliases:
            # a field, or a step that Rattle names after a call
            return snake(m[0])
        return new

    return TOKEN.sub(word, text)


def turn_comment(text, rows):
    return re.sub(r"`[^`\n]*`", lambda m: turn(m[0], rows, ""), text)


def turn_antt(path, rows):
    out = []
    function = of_a_function(path)
    name = os.path.basename(os.path.dirname(path))
    aliases = set()
    for line in lines(path):
        aliases.update(re.findall(r"\bas ([^\s;{},]+)", line))
    for line in lines(path):
        head = code(line)
        tail = line[len(head) :]
        head = turn(head, rows, path, aliases)
        if function:
            dashed = name.replace("_", "-")
            head = re.sub(rf"(?<![^\s(){{}}.;,]){re.escape(dashed)}-spec(?![^\s(){{}}.;,])", f"{name}_spec", head)
        out.append(head + turn_comment(tail, rows))
    return "\n".join(out)


def turn_rust(text, rows):
    out, at = [], 0
    for m in GHOST.finditer(text):
        if m.start() < at:
            continue
        # not inside a comment
        start = text.rfind("\n", 0, m.start()) + 1
        if "//" in text[start : m.start()]:
            continue
        end = m.end()
        if not m[0].endswith(";"):
            depth = 1
            while depth:
                depth += {"{": 1, "}": -1}.get(text[end], 0)
                end += 1
        out.append(re.sub(r"//[^\n]*", lambda c: turn_comment(c[0], rows), text[at : m.start()]))
        out.append(turn(text[m.start() : end], rows, ""))
        at = end
    out.append(re.sub(r"//[^\n]*", lambda c: turn_comment(c[0], rows), text[at:]))
    return "".join(out)


def main(argv):
    landed = argv[0]
    rows = table(landed, ".")
    if "--rows" in argv:
        with open(argv[argv.index("--rows") + 1], "w", encoding="utf-8") as f:
            f.writelines(f"{a}\t{b}\n" for a, b in sorted(rows.items()))
    if "--dry" in argv:
        return rows
    for path in antt_files("crates"):
        new = turn_antt(path, rows)
        if new != "\n".join(lines(path)):
            with open(path, "w", encoding="utf-8") as f:
                f.write(new)
    for folder, dirs, names in os.walk("crates"):
        dirs[:] = sorted(d for d in dirs if d not in ("out", "target"))
        for name in sorted(names):
            if name.endswith(".rt"):
                path = os.path.join(folder, name)
                text = "\n".join(lines(path))
                new = turn_rust(text, rows)
                if new != text:
                    with open(path, "w", encoding="utf-8") as f:
                        f.write(new)
    print(f"{len(rows)} names")


if __name__ == "__main__":
    main(sys.argv[1:])
