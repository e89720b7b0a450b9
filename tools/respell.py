#!/usr/bin/env python3
"""Respells the repository's own names in definitions and lemmas as the toolchain's library spells its names.

usage: tools/respell.py [--check] [FOLDER]

FOLDER has crates/ (default: the repository that this file stands in). --check writes nothing and lists what would be respelled.

A name that is declared in specs/ or proofs/ is respelled so:
  a type, or a function into types    its words begin with capitals and stand together: Compares-numbers is ComparesNumbers
  a definition in specs/, a field     its words are joined by underscores: is-letter is is_letter
  a lemma                             a dash stays where it joins two names, as in draft-within of `draft` and `within`;
                                      a plain word hangs on by an underscore, as in still_wide
A lemma that would have the name of a definition ends in _lem. Names of functions in src/, names that Rattle makes of a function's goals,
and names of the library stay. Two names that would fall together are shown and left. It goes by whole words, in .antt and .rt files, in edits that must fail, and in code spans of documents.
A second run changes nothing.
"""

import os
import re
import sys

WORD = re.compile(r'[^\s(){}.;,@"«»:]+')
SIGNED = re.compile(
    r'^([ \t]*)((?:(?:pub|abbrev|pattern|unfoldable|axiom)[ ]+)*)((?:record|data)[ ]+)?'
    r'([^\s(){}.;,@"«»:]+)((?:[ ]+[({][^\n]*?[)}])*)[ ]*:(?=[ \n])', re.M)
# what the library calls its operators and common functions in names of lemmas
LIBRARY = set("""length append map take drop get_or set nil cons le lt eq mem sum min max add sub mul one zero suc filter reverse concat
not and or in_range""".split())
GOAL = re.compile(r"\s*(?:goal|Goals)\.")


def files(top, ends):
    for folder, dirs, names in os.walk(top):
        dirs[:] = sorted(d for d in dirs if d not in ("out", ".git", "data", "target"))
        for name in sorted(names):
            if name.endswith(ends):
                yield os.path.join(folder, name)


def read(path):
    with open(path, encoding="utf-8") as it:
        return it.read()


def signature(text, at, indent):
    """What stands behind the colon, up to the first line that is indented no further."""
    lines = text[at:].split("\n")
    whole = [lines[0]]
    for line in lines[1:]:
        if line.strip() and len(line) - len(line.lstrip()) <= len(indent):
            break
        whole.append(line)
    return " ".join(whole)


def declared(top):
    """Each name with its kinds: 'type', 'spec' (in specs/, or a field), 'lemma', or 'goal' (Rattle's own)."""
    found = {}
    for path in files(os.path.join(top, "crates"), ".antt"):
        text = read(path)
        for it in SIGNED.finditer(text):
            rest = signature(text, it.end(), it.group(1))
            name = it.group(4)
            if name in ("where", "let", "in", "use", "module"):
                continue
            if os.path.basename(path) == "Invariants.antt" or GOAL.match(rest):
                kind = "goal"
            elif it.group(3) or re.search(r"(?:→ |^\s*)Type \d+( where)?\s*$", rest):
                kind = "type"
            elif "/specs/" in path.replace(os.sep, "/"):
                kind = "spec"
            else:
                kind = "lemma"
            found.setdefault(name, set()).add(kind)
    return found


def camel(name):
    return "".join(word[:1].upper() + word[1:] for word in re.split("[-_]", name) if word)


def lemma(name, names):
    """The dashes that join two names stay; a plain word hangs on by an underscore."""
    parts = name.split("-")
    out = [parts[0]]
    for part in parts[1:]:
        head = out[-1]
        if (head in names or head.rstrip("'") in names) and (part in names or part.rstrip("'0123456789") in names):
            out.append(part)
        else:
            out[-1] = head + "_" + part
    joined = "-".join(out)
    return joined if joined == name else lemma(joined, names)


def table(top):
    found = declared(top)
    rows = {}
    for name, kinds in found.items():
        if "type" in kinds and name[:1].isupper() and re.search("[-_]", name):
            rows[name] = camel(name)
    plain = {n for n in found if "-" not in n and "goal" not in found[n]} | set(rows) | LIBRARY
    for name, kinds in found.items():
        if "-" not in name or name in rows or "goal" in kinds:
            continue
        if "spec" in kinds:
            rows[name] = name.replace("-", "_")
    for name, kinds in sorted(found.items()):
        if "-" not in name or name in rows or "goal" in kinds:
            continue
        # longer names first, so that a name that stands at the head of a lemma's name is respelled in it
        heads = [n for n in rows if (name.startswith(n + "-") or name.startswith(n + "_")) and kinds == {"lemma"} and n in found and found[n] & {"type", "spec"}]
        head = max(heads, key=len) if heads else None
        if head:
            rest = name[len(head) + 1:]
            joined = rows[head] + ("-" if found[head] & {"type"} or rest in plain else "_") + lemma(rest, plain)
        else:
            joined = lemma(name, plain)
        if joined != name:
            rows[name] = joined
    return rows


def library_names(text):
    """Names that a file imports from the library."""
    names = set()
    for it in re.finditer(r"use Rattle\.std\.[\w.'-]*\{([^}]*)\}", text):
        names |= {n.strip() for n in it.group(1).split(",")}
    return names


def clashes(top, rows):
    """Gives _lem to a name that a definition, a lemma or an import has already; the rows that two old names would share are answered."""
    words = set(declared(top))
    for path in files(os.path.join(top, "crates"), (".antt", ".rt")):
        words |= library_names(read(path))
    for old, new in rows.items():
        if new in words:
            rows[old] = new + "_lem"
    by_new = {}
    for old, new in rows.items():
        by_new.setdefault(new, []).append(old)
    return {old for old, new in rows.items() if new in words or len(by_new[new]) > 1}


def respelled(text, rows, imported=()):
    return WORD.sub(lambda it: rows.get(it.group(0), it.group(0)) if it.group(0) not in imported else it.group(0), text)


def main(words):
    check = "--check" in words
    rest = [w for w in words if w != "--check"]
    top = rest[0] if rest else os.path.dirname(os.path.dirname(os.path.abspath(__file__)))
    rows = table(top)
    left = clashes(top, rows)
    for old in sorted(left):
        print(f"left: {old} would be {rows[old]}, which is there already")
        del rows[old]
    changed = 0
    for path in files(os.path.join(top, "crates"), (".antt", ".rt", ".edit")):
        text = read(path)
        new = respelled(text, rows, library_names(text))
        if new != text:
            changed += 1
            if not check:
                with open(path, "w", encoding="utf-8") as it:
                    it.write(new)
    for path in [os.path.join(top, "README.md")] + list(files(os.path.join(top, "docs"), ".md")):
        if os.path.exists(path):
            text = read(path)
            new = re.sub(r"`[^`\n]+`", lambda it: respelled(it.group(0).strip("`"), rows).join("``"), text)
            if new != text:
                changed += 1
                if not check:
                    with open(path, "w", encoding="utf-8") as it:
                        it.write(new)
    for old in sorted(rows) if check else []:
        print(f"{old}\t{rows[old]}")
    print(f"{len(rows)} names, {changed} files")


if __name__ == "__main__":
    main(sys.argv[1:])
