#!/usr/bin/env python3
"""Brings the repository's own names in specs, proofs, clauses, edits and pages to snake case, after port.py of the kit has turned the rest.

Run once, at the top, right after port.py: every word of specs and proofs that the repository declares and that has a dash or a capital
within it, as rowNumber or row-number, is written row_number. Types, modules, functions of src/ and the names of the library stay. A lemma
that would fall together with the definition that it is about gets _lem. Edits of must-fail/ get the new form of a projection too.
"""
import collections
import glob
import re
import sys

WORD = re.compile(r"[^\s(){}\[\].;,@\"«»:|`]+")
SIGNATURE = re.compile(r"^\s*(?:unfoldable |abbrev |pub )*([^\s(){}.;,@\"«»:]+(?: [^\s(){}.;,@\"«»:]+)*) :(?: |$)")
USE = re.compile(r"^(?:pub )?(?:ghost )?use ([^\s{]+?)\.?(?:\{(.*)\})?(?: as .*)?;?$")
LIBRARY = re.compile(r"^(?!Rattle\.(?:answer|block|board|dispatch|event|offer|plan|rules|run|state|table|wire)\b)")

# where the rule would make two names one
BY_HAND = {
    "bit-and": "bit_of_and",
    "bit-or": "bit_of_or",
    "tickCall": "called_tick",
}
# the same, in some files alone: a lemma beside the definition that it is about, and a row of the code's table beside the rules' Last
IN_FILES = (
    (r"rules/proofs/Files\.antt", ("file-bytes",)),
    (r"rules/proofs/Hard(Jobs|Most)\.antt", ("close_row",)),
    (r"rules/proofs/(Plans|Shown)\.antt", ("plan-rows",)),
    (r"rules/proofs/Scan\.antt", ("plain-bytes", "margin-bytes", "with_first")),
    (r"rules/proofs/Worked\.antt", ("margin-figures",)),
    (r"rules/proofs/Calls\.antt", ("after-tick", "after-offer")),
    (r"table/proofs/(Checks\.antt|faults/field_check/Proof\.antt)", ("zero-margin",)),
    (r"table/proofs/(Walked\.antt|scan/(margin_at|row_at)/Proof\.antt)", ("tag-at",)),
    (r"table/proofs/(Rows\.antt|writing/put_table/Proof\.antt)", ("file-bytes",)),
    (r"block/proofs/", ("row-mark", "firm-mark", "last_ok")),
    (r"block/proofs/(Results\.antt|decode/Proof\.antt)", ("image-good",)),
    (r"dispatch/proofs/RefineRun\.antt", ("is_open",)),
)
TABLE_ROW = r"use Rattle\.table\.specs\.Memory\.\{[^}]*\brow_at\b|table/specs/Memory\.antt"


def snake(word):
    word = word.replace("getD", "get_or")
    if re.match(r"[a-z]", word):
        word = re.sub(r"(?<=[a-z0-9])([A-Z])", lambda m: "_" + m[1].lower(), word)
        word = re.sub(r"(?<=-)([A-Z])(?![a-z])", lambda m: m[1].lower(), word)
    return word.replace("-", "_")


def to_turn(word):
    return bool(re.match(r"[A-Za-z]", word)) and ("-" in word or re.match(r"[a-z].*[A-Z]", word)) and not re.search(r"[<>→≤≡+*/&=∷λ×]", word)


def code_of(line):
    """The code of a line of specs or proofs, and its comment."""
    at = re.search(r"(?:^|(?<=\s))--(?=\s|$)", line)
    return (line[: at.start()], line[at.start() :]) if at else (line, "")


def read(path):
    with open(path, encoding="utf-8") as f:
        return f.read()


def write(path, text):
    if text != read(path):
        with open(path, "w", encoding="utf-8") as f:
            f.write(text)


def files(*patterns):
    return sorted(f for p in patterns for f in glob.glob(p, recursive=True) if "/out/" not in f)


def words(text):
    return [w for line in text.splitlines() for w in WORD.findall(code_of(line)[0])]


def table():
    """The words that turn, old to new: what specs and proofs of the repository say, but for what they import from the library."""
    library, own = set(), set()
    for path in files("crates/*/specs/**/*.antt", "crates/*/proofs/**/*.antt"):
        for line in read(path).splitlines():
            use = USE.match(line)
            if use and LIBRARY.match(use[1]) and use[2]:
                library.update(part.split(" as ")[0].strip() for part in use[2].split(","))
    for path in files("crates/*/specs/**/*.antt", "crates/*/proofs/**/*.antt"):
        if not path.endswith("/Proof.antt"):
            own.update(w for w in words(read(path)) if to_turn(w))
    return {w: BY_HAND.get(w, snake(w)) for w in own if w not in library}


def turned(text, names):
    return WORD.sub(lambda m: names.get(m[0], m[0]), text)


def of_specs(text, names):
    lines = []
    for line in text.splitlines(keepends=True):
        code, comment = code_of(line)
        lines.append(turned(code, names) + in_prose(comment, names))
    return "".join(lines)


def in_prose(text, names):
    """Code spans, and words with a capital within."""
    text = re.sub(r"`[^`\n]*`", lambda m: turned(m[0], names), text)
    return WORD.sub(lambda m: names.get(m[0], m[0]) if re.match(r"[a-z]+[a-z0-9]*[A-Z]", m[0]) else m[0], text)


def tight(text):
    """A projection in today's form: a.b for a .b."""
    text = re.sub(r"(?<=[\w»)'\]]) \.(?=[\w«])", ".", text)
    return re.sub(r"(?<![\w»])\((\w+(?:\.[\w«»]+)+)\)", r"\1", text).replace(".«not_ready»", ".not_ready").replace(".«none_ran»", ".none_ran")


def names_of(path, text, names):
    """The table for a file of specs or proofs."""
    here = dict(names)
    for pattern, lemmas in IN_FILES:
        if re.search(pattern, path):
            here.update({lemma: snake(lemma) + "_lem" for lemma in lemmas})
    if re.search(TABLE_ROW, path + text):
        here["row_at"] = "table_row"
    if re.search(r"crates/(?!rules/)\w+/proofs/OneResult\.antt", path):
        for name in re.findall(r"^pub (\S+) :", text, re.M):
            here[name] = snake(name) + "_lem"
    return here


def for_pages(names):
    """Edits and pages stand as before port.py: they have also the names that it turned."""
    said = set()
    for path in files("crates/*/specs/**/*.antt", "crates/*/proofs/**/*.antt"):
        said.update(words(read(path)))
    return lambda text: WORD.sub(lambda m: names.get(m[0]) or (snake(m[0]) if to_turn(m[0]) and snake(m[0]) in said else m[0]), text)


def main():
    names = table()
    for path in files("crates/*/specs/**/*.antt", "crates/*/proofs/**/*.antt"):
        text = read(path)
        write(path, of_specs(text, names_of(path, text, names)))
    for path in files("crates/*/src/**/*.rt"):
        text = read(path)
        here = names_of(path, text, names)
        lines = [in_prose(line, here) if line.lstrip().startswith("//") else turned(line, here) for line in text.splitlines(keepends=True)]
        write(path, "".join(lines))
    paged = for_pages(names)
    for path in files("crates/*/must-fail/*.edit"):
        lines = []
        for line in read(path).splitlines(keepends=True):
            lines.append(paged(tight(line)) if re.match(r"old: |new: ", line) else line)
        write(path, "".join(lines))
    for path in files("README.md", "docs/*.md", "tests/*.md", "bench/**/*.md"):
        write(path, re.sub(r"`[^`\n]*`", lambda m: paged(m[0]), read(path)))


if __name__ == "__main__":
    main()
