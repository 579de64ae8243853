#!/usr/bin/env python3
"""Spells the repository's own definitions, lemmas and fields as Rattle's library spells its own: words in snake case.

usage: respell.py [--check] [FOLDER]      over crates/ of FOLDER (here), once, after the port; a second run changes nothing

A name that specs/ or proofs/ declares turns wherever it stands: camel case and dashes become snake case, and a name that
begins with a capital stays. Where two names of one file would fall together, the lemma gets _lem (OWN below has those that
are settled by hand). Functions, fields and other names of src/ keep their spelling, since only clauses and comments have
names of specs/.
"""
import collections
import os
import re
import sys

WORD = re.compile(r'[^\s(){}.;,@"«»]+')
DECLARED = re.compile(r"(?m)^ *((?:(?:abbrev|unfoldable|pub|ruleset|abstract) )*)([^\s(){}.;,@\"«»]+)(?: \{[^{}\n]*\}| \([^()\n]*\))* :(?= |$)")
RULESET = re.compile(r"(?m)^ *(?:pub )?ruleset (?:pub )?([^\s(){}.;,@\"«»]+)")
COMMENT = re.compile(r"(?:^|(?<=\s))--[^\n]*")
USED_PATH = re.compile(r"\buse [^\s{;]*")
RUST_COMMENT = re.compile(r"//[^\n]*")

# Settled by hand: what would otherwise meet a word of the library, or another name of the file.
OWN = {
    "eachIn": "each_of",
    "oneMore": "next_count",
    "operandBelow": "operand_count",
    "bit-and": "bit_and_lem",
    "bit-or": "bit_or_lem",
    "bit-xor": "bit_xor_lem",
}
# Cycles of calls, which the port names after all their members.
CYCLES = {
    "both_line_operand_tree": "trees",
    "measure_measure_block_measure_pair": "measuring",
    "emit_emit_block_emit_if_emit_pair_emit_part_emit_query_emit_transaction_emit_while": "emitting",
    "check_block_check_branch_check_branches_check_held_check_if_check_learnt_check_pair_check_part_check_query_check_stmt_check_transaction_check_while": "checking",
    "block_writes_branch_writes_pair_writes_part_writes_stmt_writes": "writing",
    "read_block_read_branch_read_if_read_part_read_query_read_stmt_read_transaction_read_while": "reading",
    "find_body_find_in_block_find_in_pair_find_in_transaction": "finding",
}


def snake(name):
    words = re.sub(r"(?<=[a-z0-9₀-₉'])[A-Z]", lambda m: "_" + m[0].lower(), name)
    return re.sub(r"(?<=.)-(?=.)", "_", words)


def files(root):
    for top, dirs, names in os.walk(os.path.join(root, "crates")):
        dirs[:] = sorted(d for d in dirs if d != "out")
        for it in sorted(names):
            if it.endswith((".antt", ".rt", ".edit")):
                yield os.path.join(top, it)
    yield os.path.join(root, "README.md")
    for top, dirs, names in os.walk(os.path.join(root, "docs")):
        for it in sorted(names):
            if it.endswith(".md"):
                yield os.path.join(top, it)


def read(path):
    with open(path, encoding="utf-8") as f:
        return f.read()


# A file of definitions or of lemmas, and not one function's proof, whose names the check makes.
LAWS = re.compile(r"/(?:specs|proofs)/[A-Z]\w*\.antt$")


def declared(texts):
    found = set()
    for path, text in texts.items():
        if LAWS.search(path):
            code = COMMENT.sub("", text)
            found.update(m[2] for m in DECLARED.finditer(code))
            found.update(RULESET.findall(code))
    return found


def is_own(name):
    return re.fullmatch(r"[a-z][\w'₀-₉-]*", name) is not None and snake(name) != name


def table(texts):
    """Each name that turns, with its new spelling."""
    bare = lambda text: USED_PATH.sub("use ", COMMENT.sub("", text))
    words = {path: set(WORD.findall(bare(text))) for path, text in texts.items() if path.endswith(".antt")}
    names = declared(texts)
    turned = {it: snake(it) for it in names if is_own(it)}
    turned.update(OWN)
    groups = collections.defaultdict(set)
    for old, new in turned.items():
        groups[new].add(old)
    for new, olds in groups.items():
        if new not in turned:
            olds = olds | {new}
        for path, has in words.items():
            here = sorted(olds & has, key=lambda it: ("-" in it, it == new, it))
            for late in here[1:]:
                if late not in OWN:
                    if late == new:
                        print("taken:", new, here, path)
                    turned[late] = new + "_lem"
    return turned


def turn_code(text, names):
    return WORD.sub(lambda m: names.get(m[0], m[0]), text)


def turn_comment(text, names, known):
    """In prose a name with capitals inside turns; one with dashes where it stands in back ticks, is called a law, or stands in the code beside."""

    def one(m):
        word = m[0]
        bare = word.strip("`'()[]:?!*/")
        if bare not in names:
            return word
        before = text[: m.start()].rstrip()
        named = "`" in word or bare in known or re.search(r"(?:\blaws?|\btheorems?|\blemmas?|\bneeds?|,|\band)$", before)
        if "-" in bare and not named:
            return word
        return word.replace(bare, names[bare])

    return WORD.sub(one, text)


def turn_spans(text, names):
    return re.sub(r"`[^`\n]*`", lambda m: turn_code(m[0].replace("`", " "), names).replace(" ", "`", 1)[:-1] + "`", text)


def turn(path, text, names):
    if path.endswith(".md"):
        return turn_spans(text, names)
    if path.endswith(".edit"):
        lines = []
        for line in text.split("\n"):
            if re.match(r"(old|new|file):", line):
                lines.append(turn_code(line, names))
            else:
                lines.append(turn_comment(line, names, set()))
        return "\n".join(lines)
    how = COMMENT if path.endswith(".antt") else RUST_COMMENT
    known = set(WORD.findall(how.sub("", text)))
    out, at = [], 0
    for m in how.finditer(text):
        out += [turn_code(text[at : m.start()], names), turn_comment(m[0], names, known)]
        at = m.end()
    return "".join(out) + turn_code(text[at:], names)


def main(argv):
    check = "--check" in argv
    rest = [it for it in argv if it != "--check"]
    root = rest[0] if rest else "."
    texts = {path: read(path) for path in files(root)}
    names = table(texts)
    print(f"respell: {len(names)} names")
    # Edits and pages have also the older spelling of names that the port turned itself.
    known = {names.get(it, it) for it in declared(texts)}
    older = dict(names)
    for path, text in texts.items():
        if path.endswith((".edit", ".md")):
            older.update({it: snake(it) for it in WORD.findall(text.replace("`", " ")) if is_own(it) and it not in names and snake(it) in known})
    changed = 0
    for path, text in texts.items():
        new = turn(path, text, older if path.endswith((".edit", ".md")) else names)
        for old, short in CYCLES.items():
            new = new.replace(old, short)
        if new != text:
            changed += 1
            if not check:
                with open(path, "w", encoding="utf-8") as f:
                    f.write(new)
    for top, dirs, files_here in os.walk(os.path.join(root, "crates")):
        for it in list(dirs):
            if it[:1] == "+" and it[1:] in CYCLES and not check:
                os.rename(os.path.join(top, it), os.path.join(top, "+" + CYCLES[it[1:]]))
                dirs.remove(it)
    print(f"respell: {changed} files")
    for old, new in sorted(names.items()):
        if new.endswith("_lem"):
            print("lem:", old, new)


main(sys.argv[1:])
