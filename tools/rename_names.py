#!/usr/bin/env python3
"""Spells the repository's own definitions and lemmas as today's Rattle does: words in snake case, a dash only
between two names, and a prime as an apostrophe. Run once, at the top, right after port.py:

    python3 tools/rename_names.py

It changes .antt files and the ghost text of .rt files (ghost use lines and clauses), by whole names. Names of
functions, types, modules, constructors, strings and comments stay; so do names that a library has.
A name that would fall together with another gets the ending that OTHER gives, or else the script stops."""
import collections
import glob
import re
import sys

# Names whose plain spelling is taken: by a field, a parameter, a local variable or another definition.
OTHER = {
    # A lemma beside the definition that it is about.
    "at-end": "at_end_lem",
    "at_rest": "at_rest_lem",
    "each-form": "each_form_lem",
    "end-length": "end_length_lem",
    "goes_on": "goes_on_lem",
    "guard-if": "guard_if_lem",
    "last-records": "last_records_lem",
    "line-of": "line_of_lem",
    "listed-as": "listed_as_lem",
    "live-in": "live_in_lem",
    "marked-answer": "marked_answer_lem",
    "marks-of": "marks_of_lem",
    "one_more": "one_more_lem",
    "or-else": "or_else_lem",
    "record-in": "record_in_lem",
    "run_call": "run_call_lem",
    "rust-last": "rust_last_lem",
    "text_at": "text_at_lem",
    "texts-of": "texts_of_lem",
    "tick-of": "tick_of_lem",
    "total-by": "total_by_lem",
    # A field of the code has the plain name.
    "executeTicks": "execute_ticks_of",
    "busReads": "bus_reads_of",
    "busWrites": "bus_writes_of",
}

# These two stand together well: a field of a record of specs/ is spelled as the code's field.
TOGETHER = {"hidden_total"}

LIBRARY = ("Prim", "mathlib", "native", "lib", "borrow", "logic")
TOKEN = re.compile(r"[^\s(){}\[\];,.\"⟨⟩]+")
DECLARED = re.compile(r"^(\s*)(?:(?:unfoldable|abbrev|pub|data|record|ruleset)\s+)*([^\s:({;,.\"]+)\s*(?:\{[^{}]*\}\s*|\([^()]*\)\s*)*:\s")


def antt_files():
    return sorted(glob.glob("crates/*/specs/**/*.antt", recursive=True) + glob.glob("crates/*/proofs/**/*.antt", recursive=True))


def rt_files():
    return sorted(glob.glob("crates/*/src/**/*.rt", recursive=True))


def is_answer(path):
    return path.endswith(("/Proof.antt", "/Answers.antt", "/Invariants.antt"))


def uncommented(line):
    return re.sub(r"--.*", "", line)


def snake(word):
    word = re.sub(r"([a-z0-9])([A-Z])", r"\1_\2", word)
    word = re.sub(r"([A-Z])([A-Z][a-z])", r"\1_\2", word)
    return word.lower()


def declared():
    """The names that the repository declares, and those among them that specs/ declares."""
    own, words = set(), set()
    for path in antt_files():
        for line in open(path, encoding="utf-8"):
            found = DECLARED.match(uncommented(line))
            if not found:
                continue
            name = found.group(2)
            if is_answer(path) and re.search(r":\s*(tie|goal)\.", line):
                continue
            if name in ("λ", "let", "in", "elim") or not re.match(r"[a-z]", name):
                continue
            own.add(name)
            if "/specs/" in path:
                words.add(name)
    return own, words


def library():
    """The names that files import from a library, and the libraries' words among them."""
    names = set()
    for path in antt_files() + rt_files():
        for line in open(path, encoding="utf-8"):
            found = re.match(r"\s*(?:ghost )?(?:pub )?use ([A-Za-z_]+)\.([^{]*)(?:\{(.*)\})?", line)
            if not found:
                continue
            root, path_, items = found.groups()
            if root == "Rattle" and not path_.startswith(("std.", "core.", "io.", "check.", "libc.")):
                continue
            for item in (items or "").split(","):
                item = item.strip().split(" as ")[0].strip()
                if item:
                    names.add(item)
    return names


def code_fields():
    """The fields of the code's structs. A function's name may be that of the definition that it mirrors."""
    fields = set()
    for path in rt_files():
        text = re.sub(r"//[^\n]*", "", open(path, encoding="utf-8").read())
        for found in re.finditer(r"\bstruct\s+\w+[^{;]*\{(.*?)\}", text, re.S):
            fields |= set(re.findall(r"(\w+)\s*:", found.group(1)))
    return fields


def spelled(name, words):
    if name in OTHER:
        return OTHER[name]
    parts = [snake(p) for p in name.replace("′", "'").split("-")]
    out = parts[0]
    for i in range(1, len(parts)):
        left, right = parts[i - 1], parts[i]
        out += ("-" if left in words and right in words else "_") + right
    return out


def ghost_spans(text):
    """The spans of a .rt file that clauses and ghost items take."""
    spans = []
    for found in re.finditer(r"^\s*(?:pub )?ghost [^\n]*$", text, re.M):
        spans.append(found.span())
    for found in re.finditer(r"^\s*(?:requires|ensures|also_owns|ghost)[^\n{]*\{", text, re.M):
        depth, at = 1, found.end()
        while depth:
            depth += {"{": 1, "}": -1}.get(text[at], 0)
            at += 1
        spans.append((found.start(), at))
    return spans


def renamed(text, table, answer):
    def one(found):
        word = found.group(0)
        # Behind a dot a proof of a function cites what Rattle made of the code.
        if answer and word in OTHER and "_" in word and found.string[: found.start()].endswith("."):
            return word
        return table.get(word, word)

    out = []
    for line in text.split("\n"):
        code, dashes, comment = line.partition("--") if re.search(r"(^|\s)--", line) else (line, "", "")
        pieces = re.split(r'("(?:[^"\\]|\\.)*")', code)
        for i in range(0, len(pieces), 2):
            pieces[i] = TOKEN.sub(one, pieces[i])
        # A comment says names in backquotes.
        said = re.sub(r"`([^`]*)`", lambda found: "`" + TOKEN.sub(one, found.group(1)) + "`", comment)
        out.append("".join(pieces) + dashes + said)
    return "\n".join(out)


def table_of():
    own, words = declared()
    taken = library()
    nouns = {snake(w) for w in words} | {t for t in taken if re.match(r"^[a-z_]+$", t)}
    table = {}
    for name in sorted(own):
        if name in taken and name not in OTHER:
            continue
        new = spelled(name, set() if name.endswith("-spec") else nouns)
        if new != name:
            table[name] = new
    return table, own, taken


def collisions(table, own, taken):
    bad = []
    by = collections.defaultdict(list)
    for old, new in table.items():
        by[new].append(old)
    for new, olds in by.items():
        if len(olds) > 1:
            bad.append((new, "fall together: " + " ".join(olds)))
        if new in own and new not in table and new not in OTHER:
            bad.append((new, "declared already; from " + " ".join(olds)))
        if new in taken:
            bad.append((new, "a library's name; from " + " ".join(olds)))
    fields = code_fields()
    for path in antt_files():
        text = open(path, encoding="utf-8").read()
        seen = set()
        for line in text.split("\n"):
            seen |= set(re.findall(r"(?<![.\w])[^\s(){}\[\];,.\"]+", uncommented(line)))
        every = set(TOKEN.findall(text))
        for old, new in table.items():
            if old in every and new in seen and new not in table and new not in TOGETHER:
                bad.append((new, path + " has it beside " + old))
    for old, new in table.items():
        if new in fields and new not in TOGETHER:
            bad.append((new, "a field of the code; from " + old))
    return bad


def main():
    table, own, taken = table_of()
    bad = collisions(table, own, taken)
    if "--list" in sys.argv:
        for old in sorted(table):
            print(old, table[old])
    for new, why in sorted(set(bad)):
        print("falls together:", new, "--", why, file=sys.stderr)
    if bad and "--force" not in sys.argv:
        sys.exit(1)
    if "--dry" in sys.argv:
        return
    for path in antt_files():
        text = open(path, encoding="utf-8").read()
        new = renamed(text, table, is_answer(path))
        if new != text:
            open(path, "w", encoding="utf-8").write(new)
    for path in rt_files():
        text = open(path, encoding="utf-8").read()
        out, last = [], 0
        for a, b in sorted(ghost_spans(text)):
            if a < last:
                continue
            out.append(text[last:a])
            out.append(TOKEN.sub(lambda found: table.get(found.group(0), found.group(0)), text[a:b]))
            last = b
        out.append(text[last:])
        new = "".join(out)
        if new != text:
            open(path, "w", encoding="utf-8").write(new)
    # The must-fail edits quote the same text.
    for path in sorted(glob.glob("crates/*/must-fail/*.edit")):
        text = open(path, encoding="utf-8").read()
        new = "\n".join(TOKEN.sub(lambda found: table.get(found.group(0), found.group(0)), line) for line in text.split("\n"))
        if new != text:
            open(path, "w", encoding="utf-8").write(new)
    print(len(table), "names")


main()
