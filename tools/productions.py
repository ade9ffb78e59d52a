"""Writes the productions that the proofs of gb_print name, from script.txt.

    python3 tools/productions.py crates/gb_print

A production is named by its part and its first symbols, as `variant_open_brace`, or `run_none` where its body is empty; the
proofs name it through the alias `p`. Each gets its definition and the lemma that it is one of the grammar. Only those that some
proof names are written, in a file for each group of parts.
"""
import os
import re
import sys

import grammar

# Files, what they are of, and the first part of each group in them.
FILES = [
    ("Programs", "statements, calls and modules", ["statements"]),
    ("Binders", "binders and types, and lines of goals", ["binds", "level"]),
    ("Forms", "forms, up to sums", ["form"]),
    ("Operands", "operands and what stands in them", ["operand"]),
    ("Names", "names, numbers and paths", ["none", "path"]),
]
USED = re.compile(r"\bp\.(?:is_)?(\w+)")


def fail(message):
    sys.exit("productions.py: " + message)


def snake(name):
    return re.sub(r"(?<!^)([A-Z])", lambda found: "_" + found.group(1).lower(), name).lower()


def named(table):
    """The rows by their names, each with its place and what it holds."""
    rows, names = table.rows(), []
    for part, production, _, _ in rows:
        body = [symbol for symbol in production.body if symbol not in ("level", "none")] or production.body
        names.append([part.name, *map(snake, body)] if body else [part.name, "none"])
    for length in range(2, 8):
        count = {}
        for words in names:
            short = "_".join(words[:length])
            count[short] = count.get(short, 0) + 1
        for words in names:
            if count["_".join(words[:length])] == 1:
                words[length:] = []
    found = {}
    for place, (words, row) in enumerate(zip(names, rows)):
        name = "_".join(words)
        if name in found:
            fail(f"two rows are named {name}")
        found[name] = (place, row)
    return found


def used(folder):
    names = set()
    for where, _, files in os.walk(folder):
        for file in files:
            if file.endswith(".antt"):
                with open(os.path.join(where, file), encoding="utf-8") as text:
                    names |= set(USED.findall(text.read()))
    return names


def production(table, name, place, row):
    part, made, *sets = row
    starts, stops = (sum(2 ** kind for kind in kinds) for kinds in sets)
    number = table.numbers[part.name]
    symbols = [f"Part {table.numbers[s]}" if s in table.parts else f"Token {table.kinds[s]}" for s in made.body]
    action = made.action.replace(".", " head.")
    rule = f"record {{ takes = {made.takes}; action = {action}; mark = mark.{made.mark or 'Plain'} }}"
    asked, given = (f" → nat_le {made.stage} stage ≡ true", " h") if made.stage else ("", "")
    fits = "h" if made.stage else "(leb-zero stage)"
    return [
        "", f"abbrev pub {name} : Production Rule",
        f"{name} = record {{ part = {number}; rule = {rule}; starts = {starts}; stops = {stops}; body = {' ∷ '.join(symbols + ['[]'])} }}", "",
        f"pub is_{name} : (stage : ℕ){asked} → IsProduction (grammar stage) {number} {name}", "unfolding all_rows all_symbols",
        f"is_{name} stage{given} = listed stage {place} {made.stage} {name} refl {fits}",
    ]


def imports(text):
    actions = [a for a in ["Nothing", "Pass", "Make", "Enclose", "Spell", "Graft", "Flat", "Extend", "Many", "Lead", "Attach"] if re.search(rf"action = {a}\b", text)]
    symbols = [s for s in ["Token", "Part"] if re.search(rf"\b{s} \d", text)]
    staged = "nat_le" in text
    prelude = "ℕ, ◌≡◌, true, [], ◌∷◌, nat_le" if staged else "ℕ, [], ◌∷◌"
    return [
        f"use Rattle.std.specs.Prelude.{{{prelude}}}",
        "use Rattle.std.proofs.Common.{refl}",
        "use Rattle.std.proofs.Math.Dec.{leb-zero}",
        f"use Rattle.gb_script.specs.declared.table.Symbol.TheVariants.{{{', '.join(symbols)}}}",
        "use Rattle.gb_script.specs.Grammar.{Production, IsProduction}",
        "use Rattle.gb_language.specs.Language.{all_rows, all_symbols}",
        f"use Rattle.gb_script.specs.declared.action.Action.TheVariants.{{{', '.join(actions)}}}",
        "use Rattle.gb_script.specs.declared.action.Mark.TheVariants as mark",
        "use Rattle.gb_script.specs.declared.action.Rule.{Rule}",
        "use Rattle.gb_script.specs.declared.head.Head.TheVariants as head",
        "use Rattle.gb_print.proofs.Productions.Table.{grammar, listed}",
    ]


def main():
    if len(sys.argv) != 2:
        fail("give the folder of the crate")
    folder = os.path.join(sys.argv[1], "proofs")
    table = grammar.grammar()
    rows = named(table)
    names = used(folder) & set(rows)
    begins = {first: file for file, _, firsts in FILES for first in firsts}
    file_of, now = {}, None
    for part in table.parts:
        now = file_of[part] = begins.get(part, now)
    parts = {file: [] for file, _, _ in FILES}
    for name, (place, row) in rows.items():
        if name in names:
            parts[file_of[row[0].name]] += production(table, name, place, row)
    for file, what, _ in FILES:
        text = "\n".join(parts[file])
        lines = [f"-- Written by tools/productions.py from script.txt: productions of {what}."] + imports(text) + parts[file]
        with open(os.path.join(folder, "Productions", f"{file}.antt"), "w", encoding="utf-8") as out:
            out.write("\n".join(lines) + "\n")
    print(f"{len(names)} of {len(rows)} productions")


if __name__ == "__main__":
    main()
