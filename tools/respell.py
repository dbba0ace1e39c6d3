#!/usr/bin/env python3
"""respell.py: brings the names that this repository declares to snake case, once, at its top.

Turned are definitions, lemmas, fields and constructors of specs/ and of the lemma files of proofs/, where a dash or a
capital inside a word becomes an underscore, wherever code, a clause or an import names them (must-fail edits are brought over with the lines that they change). Types,
modules, functions of src/, strings and prose stay; a comment's or a page's words turn only between backticks. A name
that a file imports from the kit stays in that file. Where two names fall together in a file, the definition has the
plain one, and the lemma ends in _lem or is named in HAND below.
"""

import collections
import pathlib
import re
import sys

WORD = r"[^\s(){}.;,@\"«»]+"
DECLARED = re.compile(r"^\s*(?:(?:unfoldable|abbrev|pub|ruleset)\s+)*([^\s(){}.;,@\"«»:=]+)\s+[:=]\s")
KEYS = {"use", "module", "let", "in", "record", "data", "elim", "open", "syntax", "where", "unfolding", "λ", "|", "_"}
HAND = {
    "is-on": "core_is_on",
    "shown-on": "shown_if_on",
    "most-cores": "few_cores",
    "most-pages": "most_pages_lem",
    "args-of": "args_of_call",
    "all_short": "all_short_lem",
    "by_row": "by_row_lem",
    "swap_four": "swap_four_lem",
}
# Words that programs write, which pages show.
SAID = {"set-up"}
LEMMAS = """all-light asks-free asks-over core-text core-told held-from held-told in-byte is-accepted is-table judged-by
mapping-said maps-said no-hex owner-said place-said rows-text same-lead saving-at spoken-text swap-two table-number
who-text byte-at entry-of key-of""".split()


def snake(name):
    return re.sub(r"(?<=[a-z0-9])[A-Z]", lambda m: "_" + m[0].lower(), name).replace("-", "_")


def of_function(path):
    """Whether the file is the proof of one function."""
    parts = path.parts
    return "proofs" in parts and len(parts) - parts.index("proofs") > 2


def bare(line):
    """The line without its comment."""
    return re.sub(r"(^|\s)--(\s.*)?$", "", line)


def main(root):
    crates = root / "crates"
    own = {it.name for it in crates.iterdir() if it.is_dir()}
    files = sorted(it for it in crates.rglob("*") if it.suffix in (".rt", ".antt") and "out" not in it.parts)
    texts = {it: it.read_text() for it in files}
    declared = set()
    for path, text in texts.items():
        if path.suffix == ".antt" and not of_function(path.relative_to(root)):
            for line in text.splitlines():
                found = DECLARED.match(bare(line) + " ")
                if found and found[1] not in KEYS:
                    declared.add(found[1])
    names = {it: snake(it) for it in declared if snake(it) != it and not it[0].isupper()}
    names |= {it: snake(it) + "_lem" for it in LEMMAS if it in names}
    names |= {it: new for it, new in HAND.items() if it in declared}

    def imports(text):
        """The names that a file imports from the kit, and those that it imports from this repository."""
        kit, ours = set(), set()
        for path, words in re.findall(r"\buse ([^\s;{]+)\{([^}]*)\}", text):
            found = re.match(r"Rattle\.(\w+)\.", path)
            mine = found and found[1] in own
            for item in words.split(","):
                (ours if mine else kit).update(item.strip().split(" as ")[-1:])
        return kit, ours

    def turned(text, stay, only=None):
        """The text with its names turned; with `only`, those names and fields alone."""

        def new(m):
            word = m[0]
            if word not in names or word in stay:
                return word
            if only is not None and word not in only and not text[: m.start()].endswith("."):
                return word
            before = re.search(r"([^\s(){}.;,@\"«»]+)\.$", text[max(0, m.start() - 80) : m.start()])
            if only is not None and before and before[1] in ("tie", "goal"):
                return word
            return names[word]

        return re.sub(WORD, new, text)

    def spans(text):
        return re.sub(r"`[^`\n]*`", lambda m: turned(m[0].replace("`", " ` "), SAID).replace(" ` ", "`"), text)

    def antt(text, stay, only=None):
        lines = []
        for line in text.splitlines(keepends=True):
            code = bare(line.rstrip("\n"))
            rest = line[len(code) :]
            pieces = re.split(r'("(?:[^"\\]|\\.)*")', code)
            code = "".join(it if it.startswith('"') else turned(it, stay, only) for it in pieces)
            lines.append(code + spans(rest))
        return "".join(lines)

    def rust(text, stay):
        """Clauses and `ghost use` lines of a .rt file; elsewhere its text has none of these names."""
        lines, inside = [], False
        for line in text.splitlines(keepends=True):
            s = line.strip()
            if s.startswith("//"):
                line = spans(line)
            elif inside or re.match(r"(pub )?ghost\b|requires\b|ensures\b|decreases\b|invariant\b", s) or re.search(r"\b(requires|ensures|ghost)\b[^;]*\{", s):
                inside = line.count("{") > line.count("}") if not inside else inside and line.count("}") - line.count("{") < 1
                line = turned(line, stay)
            lines.append(line)
        return "".join(lines)

    for path, text in texts.items():
        kit, ours = imports(text)
        if path.suffix == ".rt":
            new = rust(text, kit)
        elif of_function(path.relative_to(root)):
            new = antt(text, kit, ours)
        else:
            new = antt(text, kit)
        if new != text:
            path.write_text(new)
    for path in [*root.glob("*.md"), *root.glob("docs/**/*.md"), *root.glob("model/**/*.md"), *root.glob("bench/**/*.md")]:
        text = path.read_text()
        new = spans(text)
        if new != text:
            path.write_text(new)
    print(f"{len(names)} names")
    clear = collections.Counter(names.values())
    for new, n in clear.items():
        if n > 1:
            print("one name now:", new, sorted(it for it in names if names[it] == new))


if __name__ == "__main__":
    main(pathlib.Path(sys.argv[1] if len(sys.argv) > 1 else ".").resolve())
