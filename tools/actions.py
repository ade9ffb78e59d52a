#!/usr/bin/env python3
"""Writes the table of the grammar of script.txt, with its actions, its certificates and the sorts of its trees.

    actions.py CRATE

CRATE is the folder of the crate (crates/NAME). grammar.py says how script.txt is read. Written are

    CRATE/src/rows.rt          ROWS, PLACES and a constant for each start part
    CRATE/src/bodies.rt        SYMBOLS, the bodies of the rows
    CRATE/specs/Claims.antt    what is claimed of each part, `claims`, and how many parts each stage has
    CRATE/specs/Sorts.antt     the kinds of node, the signatures of heads and the sorts of parts
    CRATE/specs/Spelling.antt  the kinds of token that spell the texts of nodes
    CRATE/proofs/Checked.antt  that the table passes its tests, at each stage

Run `rt fmt` behind it. This script is not trusted: the check decides whether what it writes is right.

sorts.txt has one line each for

    kind a                     a kind of whole nodes
    kind a = item SORT b       a kind of items, with the sort of the part that they lack and their kind with it
    kind a = list SORT         a kind of lists, with the sort of their elements
    sort SORT = a b            a sort, by its kinds
    head H = a text SORT S*    the kind of a head, `text` where it has one, and the sorts of its parts
    part p q = SORT, ?S T*     the values of these parts
"""
import os
import sys

import grammar
from grammar import STAGES, TOOLS, fail

STAGE_NAMES = ["SCRIPTS", "GOALS"]
STAGE_DOCS = ["The stage of commands and forms.", "The stage of these with what goals have besides."]
WIDTH = 100
GROUP = 16  # how many values of a function on numbers stand together in a definition

ROWS_MACRO = """// A row in the order of the parts of the grammar: part, action, of how many values, mark, stage, starts, stops, body.
macro_rules! rows {
    (@action $name:ident . $head:ident) => {
        Action::$name(Head::$head)
    };
    (@action $name:ident) => {
        Action::$name
    };
    ($($part:literal ($($action:tt)*) $takes:literal $mark:ident $stage:literal $starts:literal $stops:literal $body:literal),* $(,)?) => {
        [$(Row {
            part: $part,
            rule: Rule {
                takes: $takes,
                action: rows!(@action $($action)*),
                mark: Mark::$mark,
            },
            stage: $stage,
            starts: $starts,
            stops: $stops,
            body: $body,
        }),*]
    };
}
"""

BODIES_MACRO = """// Tokens by their numbers, and parts by theirs in brackets; a semicolon ends a body.
macro_rules! bodies {
    (@symbol [$part:literal]) => {
        Part($part)
    };
    (@symbol ;) => {
        Token(0)
    };
    (@symbol $token:literal) => {
        Token($token)
    };
    ($($symbol:tt)*) => {
        [$(bodies!(@symbol $symbol)),*]
    };
}
"""


# The table.

def bits(kinds):
    return sum(1 << kind for kind in kinds)


def literal(kinds):
    """A set of kinds as a number, as short as it may be."""
    number = bits(kinds)
    return str(number) if number < 10 ** 9 else hex(number)


def wrapped(items, separator):
    """Lines of items, as many to a line as fit."""
    lines, line = [], "   "
    for item in items:
        if len(line) + len(item) + len(separator) + 1 > WIDTH:
            lines.append(line)
            line = "   "
        line += " " + item + separator
    return lines + [line] if line.strip() else lines


def rows_file(table, rows):
    lines = ["// Written by tools/actions.py from script.txt.", "", "use gb_script::table::Row;",
             "use gb_script::action::{Action, Mark, Rule};", "use gb_script::head::Head;", ""]
    for start in table.starts:
        lines += [f"/// The part `{start}`.", f"pub const {start.upper()}: u8 = {table.numbers[start]};", ""]
    for number, (name, doc) in enumerate(zip(STAGE_NAMES, STAGE_DOCS)):
        lines += [f"/// {doc}", f"pub const {name}: u8 = {number};", ""]
    lines += ROWS_MACRO.splitlines() + ["", "/// The rows of the grammar.", f"pub const ROWS: [Row<Rule>; {len(rows)}] = rows! {{"]
    items, place = [], 0
    for part, production, starts, stops in rows:
        rule = f"({production.action}) {production.takes} {production.mark or 'Plain'}"
        items.append(f"{table.numbers[part.name]} {rule} {production.stage} {literal(starts)} {literal(stops)} {place}")
        place += len(production.body) + 1
    lines += wrapped(items, ",")
    places = [0]
    for part in table.parts.values():
        places.append(places[-1] + len(part.productions))
    lines += ["};", "", "/// Where the rows of each part begin, and how many rows there are.", f"pub const PLACES: [u16; {len(places)}] = ["]
    return lines + [f"    {', '.join(map(str, places))},", "];"]


def bodies_file(table, rows):
    def symbol(name):
        return f"[{table.numbers[name]}]" if name in table.parts else str(table.kinds[name])
    lines = ["// Written by tools/actions.py from script.txt.", "", "use gb_script::table::Symbol;",
             "use gb_script::table::Symbol::{Part, Token};", ""] + BODIES_MACRO.splitlines()
    lines += ["", "/// The bodies of the rows, each up to a `Token(0)`.",
              f"pub const SYMBOLS: [Symbol; {sum(len(production.body) + 1 for _, production, *_ in rows)}] = bodies! {{"]
    bodies = [" ".join([symbol(s) for s in production.body] + [";"]) for _, production, *_ in rows]
    return lines + wrapped(bodies, "") + ["};"]


# Definitions by numbers, and the certificates.

def decided(leaves, low):
    """The lines of a choice among leaves by comparisons of `n`, the first of them at `low`, a line each."""
    if len(leaves) == 1:
        return [leaves[0]]
    middle = len(leaves) // 2
    left, right = decided(leaves[:middle], low), decided(leaves[middle:], low + middle)
    left[0] = f"(if nat_lt n {low + middle} then {left[0]}"
    right[0] = f"else {right[0]}"
    right[-1] += ")"
    return left + right


def grouped(name, kind, leaves):
    """Definitions NAME0, NAME1 .. of functions from numbers, with so many leaves each, and the choice among them."""
    lines, calls = [], []
    for low in range(0, len(leaves), GROUP):
        calls.append(f"{name}{len(calls)}")
        lines += [f"abbrev {calls[-1]} : ℕ → {kind}", f"{calls[-1]} n ="]
        lines += ["    " + line for line in decided(leaves[low:low + GROUP], low)] + [""]

    def choose(low, high):
        if high - low == 1:
            return f"{calls[low]} n"
        middle = (low + high) // 2
        return f"(if nat_lt n {middle * GROUP} then {choose(low, middle)} else {choose(middle, high)})"
    return lines, choose(0, len(calls))


def claims_file(table):
    lines = ["-- Written by tools/actions.py from script.txt: what is claimed of each part.",
             "use Rattle.std.specs.Prelude.{ℕ, Bool, [], ◌∷◌, true, false, nat_lt, slice_index_or, if◌then◌else◌}",
             "use Rattle.gb_script.specs.Check.{Claim, Claims}", "", "abbrev claim : Bool → ℕ → ℕ → ℕ → ℕ → Claim",
             "claim n a b w h = record { nullable = n; first = a; follow = b; weight = w; height = h }", ""]
    parts = table.parts.values()
    claims, choice = grouped("claims", "Claim", [
        f"claim {'true' if part.nullable else 'false'} {bits(part.first)} {bits(part.follow)} {part.weight} {part.height}" for part in parts])
    lines += claims + ["-- what is claimed of each part, which is found by its number", "abbrev claim_at : ℕ → Claim", f"claim_at n = {choice}"]
    counts = [sum(1 for part in parts if part.stage <= stage) for stage in range(len(STAGES))]
    lines += ["", "-- what is claimed of the parts that have texts up to a stage, which come first", "abbrev pub claims : ℕ → Claims"]
    return lines + [f"claims stage = record {{ count = slice_index_or ({listed(map(str, counts))}) stage 0; at = claim_at }}"]


def checked_file(crate):
    lines = ["-- Written by tools/actions.py: the table passes its tests.", "use Rattle.std.specs.Prelude.{◌≡◌, true}",
             "use Rattle.std.proofs.Common.{refl}", f"use Rattle.{crate}.specs.declared.rows.TheConstants.{{ROWS, PLACES}}",
             f"use Rattle.{crate}.specs.declared.bodies.TheConstants.{{SYMBOLS}}", f"use Rattle.{crate}.specs.Claims.{{claims}}",
             "use Rattle.gb_script.specs.Grammar.{grammar_of}", f"use Rattle.{crate}.specs.Sorts.{{part_sorts, signatures}}",
             f"use Rattle.{crate}.specs.Spelling.{{spelling}}", f"use Rattle.{crate}.specs.Language.{{still_kinds}}", "use Rattle.gb_script.specs.Acts.{sorts_ok}",
             "use Rattle.gb_script.specs.Spelled.{spellings_ok, still_ok}", "use Rattle.gb_script.specs.Check.{productions_ok, places_ok, grammar_ok}",
             "use Rattle.gb_script.proofs.Bodies.{bodies, in_order, grammar_with, grammar_passes}",
             "", "ordered : in_order 0 ROWS (bodies SYMBOLS) ≡ true", "ordered = refl"]
    for stage, name in enumerate(STAGE_NAMES):
        low = name.lower()
        lines += ["", f"{low}_productions : productions_ok (claims {stage}) (grammar_with {stage} ROWS (bodies SYMBOLS)) ≡ true", f"{low}_productions = refl",
                  "", f"{low}_places : places_ok PLACES (claims {stage}).count ROWS ≡ true", f"{low}_places = refl",
                  "", f"pub {low}_pass : grammar_ok {stage} (claims {stage}) PLACES ROWS SYMBOLS ≡ true",
                  f"{low}_pass = grammar_passes {stage} SYMBOLS (claims {stage}) PLACES ROWS ordered {low}_productions {low}_places"]
    for stage, name in enumerate(STAGE_NAMES):
        low = name.lower()
        lines += ["", f"pub {low}_sorted : sorts_ok signatures part_sorts (grammar_of {stage} ROWS SYMBOLS) ≡ true", f"{low}_sorted = refl",
                  "", f"pub {low}_spelled : spellings_ok spelling (grammar_of {stage} ROWS SYMBOLS) ≡ true", f"{low}_spelled = refl",
                  "", f"pub {low}_still : still_ok signatures part_sorts still_kinds (grammar_of {stage} ROWS SYMBOLS) ≡ true", f"{low}_still = refl"]
    return lines


# The sorts.

def sorts_text():
    """The lines of sorts.txt, by what they begin with."""
    found = {"kind": {}, "sort": {}, "head": {}, "part": {}}
    with open(os.path.join(TOOLS, "sorts.txt"), encoding="utf-8") as text:
        for line in text:
            line = line.strip()
            if line and line[0] != "#":
                what, _, rest = line.partition(" ")
                names, _, value = rest.partition("=")
                for name in names.split():
                    if name in found[what]:
                        fail(f"{what} {name} is there twice")
                    found[what][name] = value.strip()
    return found


def sort_name(word):
    return word.lower() + "_sort" if word else "[]"


def listed(items):
    return " ∷ ".join([*items, "[]"])


def shape(words):
    """The shape of a list, from the sorts of its first elements and that of all others, which ends with '*'."""
    rest = [word.rstrip("*") for word in words if word.endswith("*")]
    if len(rest) > 1 or rest and not words[-1].endswith("*"):
        fail(f"no shape: {words}")
    first = [sort_name(word) for word in words if not word.endswith("*")]
    return f"record {{ first = {listed(first)}; rest = {sort_name(rest[0]) if rest else '[]'} }}"


def value_sort(text):
    words = text.split()
    if words[0].startswith("?"):
        return f"some ({shape([words[0][1:]] + words[1:])})"
    return f"many ({shape(words)})" if words[-1].endswith("*") else f"one {sort_name(words[0])}"


def part_sort(text):
    return listed([value_sort(value) for value in text.split(",")] if text else [])


def signature(text, kinds):
    kind, *words = text.split()
    texted = words[:1] == ["text"]
    return f"record {{ kind = {kinds[kind]}; text = {'true' if texted else 'false'}; parts = {shape(words[texted:])} }}"


def role(text):
    what, *words = text.split() or ["whole"]
    return " ".join([what] + [sort_name(sort) for sort in words[:1]] + [f"{kind}_kind" for kind in words[1:]])


def sorts_file(table):
    found = sorts_text()
    missing = set(table.parts) ^ set(found["part"])
    if missing:
        fail(f"parts without sorts, or sorts without parts: {sorted(missing)}")
    heads = {production.head for _, production in table.productions()} - {""}
    if heads ^ set(found["head"]):
        fail(f"heads: {sorted(heads ^ set(found['head']))}")
    lines = ["-- Written by tools/actions.py from sorts.txt: the kinds of node, the signatures of heads and the sorts of parts.",
             "use Rattle.std.specs.Prelude.{ℕ, true, false, [], ◌∷◌, List, nat_lt, if◌then◌else◌}",
             "use Rattle.gb_script.specs.declared.head.Head.{Head}", "use Rattle.gb_script.specs.declared.head.Head.TheVariants as head",
             "use Rattle.gb_script.specs.Sorts.{Sort, Role, whole, item, list, Signature, Language, ValueSort, one, many, some}", "", "-- Kinds of node."]
    for number, kind in enumerate(found["kind"]):
        lines += ["", f"abbrev pub {kind}_kind : ℕ", f"{kind}_kind = {number}"]
    lines += ["", "-- Sorts."]
    for sort, kinds in found["sort"].items():
        lines += ["", f"abbrev pub {sort_name(sort)} : Sort", f"{sort_name(sort)} = {listed([k + '_kind' for k in kinds.split()])}"]
    lines += ["", "-- what the nodes of each head are", "abbrev pub signature : Head → Signature"]
    kinds = {kind: f"{kind}_kind" for kind in found["kind"]}
    lines += [f"signature head.{name} = {signature(text, kinds)}" for name, text in found["head"].items()]
    lines += [f"signature head.List = {signature('none', {'none': len(kinds)})}", ""]
    roles, choice = grouped("roles", "Role", [role(text) for text in found["kind"].values()])
    lines += roles + ["-- what the nodes of each kind are", "abbrev pub role : ℕ → Role", f"role n = {choice}", ""]
    sorts, choice = grouped("sorts", "List ValueSort", [part_sort(found["part"][name]) for name in table.parts])
    lines += sorts + ["-- the sorts of the values of each part, which is found by its number", "abbrev pub part_sorts : ℕ → List ValueSort", f"part_sorts n = {choice}"]
    return lines + ["", "abbrev pub signatures : Language", "signatures = record { signature = signature; role = role }"]


def spelling_file(table):
    kinds = {}
    for _, production in table.productions():
        if production.action.startswith("Spell."):
            first = next(symbol for symbol in production.body if symbol in table.kinds)
            kinds.setdefault(production.head, set()).add(table.kinds[first])
    lines = ["-- Written by tools/actions.py from script.txt: the kinds of token that spell the texts of nodes.",
             "use Rattle.std.specs.Prelude.{ℕ, [], ◌∷◌, List}", "use Rattle.gb_script.specs.declared.head.Head.{Head}",
             "use Rattle.gb_script.specs.declared.head.Head.TheVariants as head",
             "", "-- the kinds of each head that has a text", "abbrev pub spelling : Head → List ℕ"]
    lines += [f"spelling head.{head} = {listed(map(str, sorted(found)))}" for head, found in kinds.items()]
    return lines + ["spelling _ = []"]


def main():
    if len(sys.argv) != 2:
        fail("give the folder of the crate")
    folder = sys.argv[1]
    table = grammar.grammar()
    rows = table.rows()
    files = {
        "src/rows.rt": rows_file(table, rows),
        "src/bodies.rt": bodies_file(table, rows),
        "specs/Claims.antt": claims_file(table),
        "specs/Sorts.antt": sorts_file(table),
        "specs/Spelling.antt": spelling_file(table),
        "proofs/Checked.antt": checked_file(os.path.basename(os.path.abspath(folder))),
    }
    for name, lines in files.items():
        with open(os.path.join(folder, name), "w", encoding="utf-8") as out:
            out.write("\n".join(lines) + "\n")
    print(f"{len(table.parts)} parts, {len(rows)} rows, {len(table.kinds)} kinds of token")


if __name__ == "__main__":
    main()
