#!/usr/bin/env python3
"""Brings this repository's own names to the kit's spelling: definitions, lemmas, fields and constructors in snake case.

usage: python3 tools/respell.py [--check] [FOLDER]    FOLDER: the top of a checkout, after the kit's port.py; default '.'

A name that specs/ or proofs/ declare, or that a proof binds, gets underscores: coedgeSize and coedge-size become
coedge_size. A type, a module and a fact keep their capitals. What stays: the kit's names, those that the kit makes of
the source (goals, steps, joins: what stands behind 'goal.', 'c.' and the like), and every name of src/ that is not a
definition's. Where a lemma and a definition would get one name, the lemma gets '_lem' behind it, and a few pairs
of names have a row of their own in OTHER. What turns: the code of .antt and .rt files, their comments, must-fail edits,
and code spans of .md files. --check writes nothing and prints the table.
"""

import collections
import os
import re
import sys

WORD = re.compile(r'[^\s(){}.;,@"«»]+')
RUST = re.compile(r"[A-Za-z_][\w']*(?:-[A-Za-z_0-9][\w']*)*")
CAMEL = re.compile(r"(?=.*[a-z0-9][A-Z])[a-z][\w'-]*")
DASHED = re.compile(r"[^\W\d_][\w'→]*(?:-[\w'→]+)+")
MODIFIERS = r"(?:(?:abbrev|opaque|unfoldable|pub|instance)\s+)*"
COMMENT = re.compile(r"--[^\n]*|\{-.*?-\}", re.S)
# Names that the kit makes begin so, or end so.
MADE = re.compile(
    r"(?:then|else|returns|loop|if|match|arm|while|for|prove|invariant|invariant_of|decreases|in_\w+|overflow_\w+|"
    r"slice_bounds|bounds|offset_bounds|nonzero_\w+|step)-.*|.*-(?:requires|ensures)(?:-\d+)?|.*-is"
)
HEADS = re.compile(r"(?:goal|c|w|l|g)[\d']*")
HOLDERS = {"args", "initial", "fn", "new", "auto", "ranges"}
# Names whose plain spelling another name has already.
OTHER = {
    "div-mono": "float_div_mono",
    "in-float": "in_float_lem",
    "is-nan": "is_nan_lem",
    "le-trans": "float_le_trans",
    "lt-irrefl": "float_lt_irrefl",
    "ne-eqb": "ne_eqb_false",
    "of-fields": "of_fields_lem",
    "own-value": "fits_own_value",
    "round-mono": "round_in_mono",
    "to-z": "to_z_end",
}
# Lemmas of these files whose name a lemma of the kit has too, which they use under another or not at all.
HERE = {
    "crates/leaves/proofs/PackedRoots.antt": {"rounded-fits": "rounded_fits"},
    "crates/leaves/proofs/Roots.antt": {"rounded-fits": "rounded_fits"},
    "crates/leaves/proofs/Wholes.antt": {"round-fits": "round_in_fits"},
}


def snake(name):
    name = re.sub(r"(?<=[a-z0-9])[A-Z]", lambda m: "_" + m[0].lower(), name)
    return name.replace("-", "_")


def files(root, endings, inside="crates"):
    for folder, dirs, names in os.walk(os.path.join(root, inside)):
        dirs[:] = sorted(d for d in dirs if d not in ("out", ".git", "target"))
        for name in sorted(names):
            if name.endswith(endings):
                yield os.path.join(folder, name)


def read(path):
    with open(path, encoding="utf-8") as f:
        return f.read()


def plain(text):
    """The text with its comments blanked."""
    return COMMENT.sub(lambda m: re.sub(r"[^\n]", " ", m[0]), text)


def declared(text):
    """The names that a text declares: a line that begins with a name, its parameters and ':'."""
    out = set()
    for m in re.finditer(rf"(?m)^ *{MODIFIERS}([^\s(){{}}.;,@\"«»:=|]+)(?=[\s:])", text):
        at, deep = m.end(), 0
        while at < len(text):
            c = text[at]
            if c in "({":
                deep += 1
            elif c in ")}":
                deep -= 1
            elif deep < 0:
                break
            elif deep == 0 and c == ":" and text[at - 1].isspace():
                out.add((m[1], "goal." if text[at + 1 : at + 7].strip().startswith("goal.") else ""))
                break
            elif deep == 0 and not c.isspace():
                break
            at += 1
    return out


def names(root):
    """The table, old to new."""
    own, goals, kit, used = {}, set(), set(), collections.Counter()
    for path in files(root, (".antt",)):
        text = plain(read(path))
        for name, goal in declared(text):
            if goal:
                goals.add(name)
            else:
                own.setdefault(name, set()).add("specs" if "/specs/" in path else "proofs")
        goals.update(re.findall(r"(?<![\w'.-])goal\.([^\s(){}.;,@]+)", text))
        for m in re.finditer(r"use ([^\s;{]+?)\.?\{([^}]*)\}", text):
            steps = m[1].split(".")
            library = steps[0] != "Rattle" or not os.path.isdir(os.path.join(root, "crates", steps[1]))
            if library or "Goals" in steps or "Generated" in steps:
                for item in m[2].split(","):
                    kit.update(w.strip("«»") for w in item.split())
        for m in WORD.finditer(text):
            if text[m.start() - 1 : m.start()] != ".":
                used[m[0]] += 1
    for path in files(root, (".rt",)):
        for m in re.finditer(r"ghost use (Rattle\.(\w+)[^\s;{]*?)\.?\{([^}]*)\}", read(path)):
            if not os.path.isdir(os.path.join(root, "crates", m[2])):
                for item in m[3].split(","):
                    kit.update(item.split())
        for m in re.finditer(r"\bas ([a-z][\w']*)", read(path)):
            used[m[1]] += 1
    table, taken = {}, collections.defaultdict(set)
    for name in set(own) | set(used):
        if name in kit or name in goals or snake(name) == name:
            continue
        if name[0].isupper() and not ("-" in name and name in own):
            continue
        if not (CAMEL.fullmatch(name) or DASHED.fullmatch(name)):
            continue
        if name not in own and MADE.fullmatch(name):
            continue
        table[name] = OTHER.get(name, snake(name))
        taken[table[name]].add(name)
    for new, olds in taken.items():
        if len(olds) > 1 or new in own:
            for old in olds:
                if "-" in old and len(olds) + (new in own) > 1:
                    table[old] = new + "_lem"
    return table, own


def antt(text, table):
    """The text of an .antt file, turned."""
    out, at = [], 0
    kept = set(re.findall(r"(?<![\w'.-])goal\.([^\s(){}.;,@]+)", text))
    for m in COMMENT.finditer(text):
        out.append(code(text[at : m.start()], table, kept))
        out.append(words(m[0], table))
        at = m.end()
    out.append(code(text[at:], table, kept))
    return "".join(out)


def code(text, table, kept):
    out, at, chain, end = [], 0, [], -1
    for m in WORD.finditer(text):
        tight = m.start() and text[m.start() - 1] == "."
        if tight and end == m.start() - 1 and chain:
            chain.append(m[0])
        elif tight:
            chain = ["", m[0]]
        else:
            chain = [m[0]]
        end = m.end()
        new = table.get(m[0])
        if new is None or m[0] in kept and len(chain) == 1:
            continue
        made = len(chain) == 2 or len(chain) == 3 and chain[1] in HOLDERS
        if kept and "-" in m[0] and made and HEADS.fullmatch(chain[0]):
            continue
        out.append(text[at : m.start()] + new)
        at = m.end()
    return "".join(out) + text[at:]


def words(text, table):
    """A text, turned word by word."""
    return RUST.sub(lambda m: table.get(m[0], m[0]), text)


def rust(text, table):
    """The text of an .rt file, turned: strings stay."""
    out, at = [], 0
    for m in re.finditer(r'//[^\n]*|"(?:\\.|[^"\\])*"|\'(?:\\.|[^\'\\\n])\'', text):
        out += [words(text[at : m.start()], table), words(m[0], table) if m[0].startswith("//") else m[0]]
        at = m.end()
    return "".join(out) + words(text[at:], table)


def edit(text, table):
    lines, file = [], ""
    for line in text.split("\n"):
        if line.startswith("file:"):
            file = line
        elif line.startswith(("old:", "new:")):
            line = line[:4] + (rust if file.strip().endswith(".rt") else antt)(line[4:], table)
        lines.append(line)
    return "\n".join(lines)


def page(text, table):
    """A page: its code spans and fenced blocks."""
    span = re.compile(r"^```[^\n]*\n.*?^```|`[^`\n]+`", re.S | re.M)
    return span.sub(lambda m: words(m[0], table), text)


def main(argv):
    check = "--check" in argv
    rest = [a for a in argv if a != "--check"]
    root = rest[0] if rest else "."
    table, own = names(root)
    if check:
        for old, new in sorted(table.items()):
            print(old, new, " ".join(sorted(own.get(old, ()))), sep="\t")
        return 0
    changed = 0
    for path, rows in HERE.items():
        path = os.path.join(root, path)
        if os.path.isfile(path):
            lines = read(path).split("\n")
            new = "\n".join(line if line.startswith("use lib.") else antt(line, rows) for line in lines)
            if new != "\n".join(lines):
                with open(path, "w", encoding="utf-8") as f:
                    f.write(new)
                changed += 1
    for turn, paths in (
        (antt, files(root, (".antt",))),
        (rust, files(root, (".rt",))),
        (edit, files(root, (".edit",))),
        (page, (os.path.join(root, p) for p in ["README.md"] + sorted(
            os.path.join("docs", f) for f in os.listdir(os.path.join(root, "docs")) if f.endswith(".md")))),
    ):
        for path in paths:
            text = read(path)
            new = turn(text, table)
            if new != text:
                with open(path, "w", encoding="utf-8") as f:
                    f.write(new)
                changed += 1
    print(f"respell: {len(table)} names, {changed} files")
    return 0


if __name__ == "__main__":
    sys.exit(main(sys.argv[1:]))
