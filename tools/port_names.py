#!/usr/bin/env python3
"""Brings the repository's own definitions and lemmas to snake case: camelCase and dashes become underscores.

usage: python3 tools/port_names.py        at the top, once, right after port.py

It reads each declaration of crates/*/specs and crates/*/proofs, and turns the whole words of .antt files, clauses and
ghost use items of .rt files, must-fail edits, and code spans of README.md and docs/. Types and modules (upper camel
case) keep their names, and so do functions of src/, since only clauses of .rt files are read. A name stays where the
new spelling would meet another name of some file; those are printed. A file that imports a name from a library of the
kit keeps the library's spelling.
"""

import glob
import re
import subprocess
import sys

WORD = re.compile(r'[^\s(){}.;,@"«»\[\]`|]+')
DECLARED = re.compile(
    r"^( *)((?:(?:pub|abbrev|unfoldable|mutual|private|record|data|module|ruleset|syntax) )*)"
    r"([^\s(){}.;,@\"«»:]+)((?: (?:\{[^{}]*\}|\([^()]*\)))*) :(?= |$)"
)
USE = re.compile(r"\buse ([^\s;{]+)\.\{([^}]*)\}")
GOAL = re.compile(r": tie\.Need-")
KEPT = re.compile(r"(?:[A-Z][A-Za-z0-9]*|Need-.*|Then.*|Else.*|After-.*)$")


def files(ending):
    out = subprocess.run(["git", "ls-files", "crates", "README.md", "docs"], capture_output=True, text=True, check=True).stdout.split("\n")
    return sorted(f for f in out if f.endswith(ending))


def read(path):
    with open(path, encoding="utf-8") as f:
        return f.read()


def snake(name):
    name = re.sub(r"(?<=[a-z0-9])(?=[A-Z])", "_", name)
    head = re.match(r"[A-Z][A-Za-z0-9]*", name)
    words = name.replace("-", "_")
    if head and "_" in words:
        return words  # P2_name: a point, or a type, keeps its capital
    return words.lower() if re.match(r"[a-z]", words) else words


def code_and_comment(line):
    m = re.search(r"(?:^|(?<=\s))--(?=\s|$)", line)
    return (line[: m.start()], line[m.start() :]) if m else (line, "")


def library_names(text, own):
    """The names that a file takes from a library of the kit."""
    out = set()
    for path, names in USE.findall(text):
        steps = path.split(".")
        if steps[0] == "Rattle" and len(steps) > 1 and steps[1] in own:
            continue
        for it in names.split(","):
            out.add(it.strip().split(" as ")[0])
    return out


def main():
    own = {f.split("/")[1] for f in files(".antt")}
    texts = {f: read(f) for f in files(".antt")}
    names = {}  # each declared name, with the folders (specs, proofs) that declare it
    for f, text in texts.items():
        proof = f.endswith("/Proof.antt")
        for line in text.split("\n"):
            m = DECLARED.match(line)
            if not m or "record" in m[2].split() or "data" in m[2].split():
                continue
            if proof and (GOAL.search(line) or m[3].endswith("-spec")):
                continue
            if not KEPT.match(m[3]) and not re.search(r"[^\w'-]", m[3]):
                names.setdefault(m[3], set()).add(f.split("/")[2])
    groups = {}
    for n in names:
        groups.setdefault(snake(n), []).append(n)
    table = {}
    for to, group in groups.items():
        # where several fall together, the definition has the name, and a lemma gets _lem
        group.sort(key=lambda n: (not re.search(r"[a-z][A-Z]", n), "-" in n))
        for k, n in enumerate(group):
            table[n] = to if k == 0 else to + "_lem" * k
    every = dict(texts)
    for f in files(".rt"):
        every[f] = clauses_only(read(f))
    code = {f: words_in(f, t) for f, t in every.items()}
    kept = {f: library_names(t, own) for f, t in every.items()}
    for _ in range(3):
        met = set()
        for f, words in code.items():
            seen = {}
            for w in sorted(words):
                to = table.get(w, w) if w not in kept[f] else w
                if seen.setdefault(to, w) != w:
                    for it in (w, seen[to]):
                        if it not in kept[f] and table.get(it, it) != it:
                            met.add((it, to, f))
        for it, to, f in sorted(met):
            print(f"met: {it} -> {to}, another name in {f}")
            table[it] = to + "_lem"
    table = {a: b for a, b in table.items() if a != b}
    for f, text in texts.items():
        kept = library_names(text, own)
        put(f, "\n".join(turn_line(l, table, kept) for l in text.split("\n")), text)
    for f in files(".rt"):
        text = read(f)
        kept = library_names(text, own)
        put(f, turn_clauses(text, lambda s: words_of(s, table, kept)), text)
    for f in files(".edit"):
        text = read(f)
        put(f, "\n".join(words_of(l, table, set()) if re.match(r"(old|new): ", l) else l for l in text.split("\n")), text)
    for f in files(".md"):
        text = read(f)
        put(f, re.sub(r"`[^`\n]+`", lambda m: words_of(m[0], table, set()), text), text)
    print(f"{len(table)} names turned; of these {sum(b.endswith('_lem') for b in table.values())} got _lem: " + ", ".join(f"{a} {b}" for a, b in sorted(table.items()) if b.endswith("_lem")))


def words_of(text, table, kept):
    """Turns the words, but not those of a use line's path, which names files and functions."""
    m = re.match(r"(\s*(?:pub |ghost |unfoldable )*use [^\s;{]+)(.*)", text, re.S)
    head, text = (m[1], m[2]) if m else ("", text)
    return head + WORD.sub(lambda m: m[0] if m[0] in kept else table.get(m[0], m[0]), text)


def turn_line(line, table, kept):
    code, comment = code_and_comment(line)
    comment = re.sub(r"`[^`\n]+`", lambda m: words_of(m[0], table, kept), comment)
    comment = WORD.sub(lambda m: table[m[0]] if m[0] in table and m[0] not in kept and re.search(r"[a-z][A-Z]", m[0]) else m[0], comment)
    return words_of(code, table, kept) + comment


def words_in(path, text):
    """The words of a file's code, without the paths of its use lines."""
    if path.endswith(".antt"):
        text = "\n".join(code_and_comment(l)[0] for l in text.split("\n"))
    text = re.sub(r"\buse ([^\s;{]+)\.\{", "use {", text)
    text = re.sub(r"\buse ([^\s;{]+)", "use", text)
    return set(WORD.findall(re.sub(r"\.[^\s(){}.;,@\"«»\[\]`|]+", "", text)))


SPANS = re.compile(r"ghost use [^;]*;|//[^\n]*")


def spans(text):
    """The parts of a .rt file that are antt: ghost use items and the braces of clauses; and comments."""
    out = [m.span() for m in SPANS.finditer(text)]
    for m in re.finditer(r"\b(?:requires|ensures)\*?(?: \w+)? \{", text):
        at, depth = m.end(), 1
        while depth:
            depth += {"{": 1, "}": -1}.get(text[at], 0)
            at += 1
        out.append((m.end(), at - 1))
    return sorted(out)


def clauses_only(text):
    return "\n".join(text[a:b] for a, b in spans(text) if not text.startswith("//", a))


def turn_clauses(text, turn):
    out, at = [], 0
    for a, b in spans(text):
        if a < at:
            continue
        part = text[a:b]
        if part.startswith("//"):
            part = re.sub(r"`[^`\n]+`", lambda m: turn(m[0]), part)
        else:
            part = turn(part)
        out += [text[at:a], part]
        at = b
    return "".join(out) + text[at:]


def put(path, new, old):
    if new != old:
        with open(path, "w", encoding="utf-8") as f:
            f.write(new)


if __name__ == "__main__":
    sys.exit(main())
