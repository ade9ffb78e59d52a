#!/usr/bin/env python3
"""Writes the terminals of a grammar and their spellings.

    spellings.py GRAMMAR SPELLINGS TREES CRATE

GRAMMAR is the text that actions.py reads. SPELLINGS has lines 'Kind SPELLING..', and 'Kind/Terminal SPELLING..' where
several terminals are of one kind of token; a kind that has no such line is a terminal too. TREES and CRATE are folders of
crates (crates/NAME). Written are

    TREES/src/terminal.rt      enum Terminal
    CRATE/src/spelling.rt      the table of spellings, each filled up with spaces to the length of the longest one
    CRATE/src/kind.rt          the number of the kind of each terminal
    CRATE/specs/Kinds.antt     .. and its definition
"""
import os
import sys

WIDTH = 100


def lines_of(path):
    with open(path) as text:
        return [line.split() for line in text if line.strip() and not line.startswith("#")]


def kinds_of(path):
    return [kind for words in lines_of(path) if words[0] == "kinds" for kind in words[1:]]


def spellings_of(path, kinds):
    """The kind of each terminal, and the spellings with their terminals."""
    terminals, pairs = {}, []
    for words in lines_of(path):
        kind, _, terminal = words[0].partition("/")
        if kind not in kinds:
            sys.exit(f"spellings.py: {kind} is no kind of token of the grammar")
        terminals[terminal or kind] = kind
        pairs += [(spelling, terminal or kind) for spelling in words[1:]]
    if len({spelling for spelling, _ in pairs}) != len(pairs):
        sys.exit("spellings.py: a spelling is there twice")
    ordered = {}
    for kind in kinds:
        mine = [terminal for terminal, its in terminals.items() if its == kind]
        for terminal in mine or [kind]:
            ordered[terminal] = kind
    return ordered, pairs


def wrapped(items, indent):
    lines, line = [], indent
    for item in items:
        if len(line) + len(item) + 2 > WIDTH:
            lines.append(line.rstrip())
            line = indent
        line += item + ", "
    return lines + [line.rstrip()]


def terminal_file(sources, terminals):
    out = [f"// Written by tools/spellings.py from {sources}.", ""]
    out += ["/// What is told apart among tokens: each spelling that the language has, names and numbers."]
    out += ["#[derive(Clone, Copy)]", "pub enum Terminal {"]
    return out + [f"    {terminal}," for terminal in terminals] + ["}"]


def spelling_file(sources, trees, pairs):
    width = max(len(spelling) for spelling, _ in pairs)
    out = [f"// Written by tools/spellings.py from {sources}.", "", f"use {trees}::terminal::Terminal;", ""]
    out += ["/// How many bytes the longest spelling has.", f"pub const WIDTH: usize = {width};", ""]
    out += ["/// A spelling of a terminal, filled up with spaces.", "#[derive(Clone, Copy)]", "pub struct Spelling {",
            f"    pub text: [u8; {width}],", "    pub terminal: Terminal,", "}", ""]
    out += ["macro_rules! spellings {", "    ($($text:literal $terminal:ident),* $(,)?) => {",
            "        [$(Spelling {", "            text: *$text,", "            terminal: Terminal::$terminal,", "        }),*]", "    };", "}", ""]
    out += ["/// The spellings of the terminals.", f"pub const SPELLINGS: [Spelling; {len(pairs)}] = spellings! {{"]
    items = []
    for spelling, terminal in pairs:
        text = spelling.ljust(width).replace("\\", "\\\\")
        items.append(f'b"{text}" {terminal}')
    return out + wrapped(items, "    ") + ["};"]


def kind_file(sources, trees, crate, kinds, terminals):
    out = [f"// Written by tools/spellings.py from {sources}.", "",
           "ghost use Rattle.std.specs.Prelude.{◌≡◌};", f"ghost use Rattle.{crate}.specs.Kinds.{{kind_of}};", "",
           f"use {trees}::terminal::Terminal;", "",
           "/// The number of a terminal's kind in the table of the grammar.",
           "#[tactic(auto, unfolding(crate::specs::Kinds::kind_of))]", "pub fn kind(terminal: Terminal) -> u8",
           "    ensures { result ≡ kind_of terminal }", "{", "    match terminal {"]
    for number, kind in enumerate(kinds, 1):
        mine = [f"Terminal::{terminal}" for terminal, its in terminals.items() if its == kind]
        out.append(f"        {' | '.join(mine)} => {number},")
    return out + ["    }", "}"]


def named(terminal):
    """The name of a terminal in a definition, where `Type` is a word."""
    return "«Type»" if terminal == "Type" else terminal


def kinds_file(sources, trees, kinds, terminals):
    lines = [f"-- Written by tools/spellings.py from {sources}: the kinds of token, by their numbers."]
    lines += ["use Rattle.std.specs.Prelude.{ℕ}", f"use Rattle.{trees}.specs.declared.terminal.Terminal.{{Terminal}}"]
    lines += [f"use Rattle.{trees}.specs.declared.terminal.Terminal.TheVariants.{{{', '.join(map(named, terminals))}}}", ""]
    lines += ["-- the number of a terminal's kind in the table", "unfoldable pub kind_of : Terminal → ℕ"]
    return lines + [f"kind_of {named(terminal)} = {kinds.index(kind) + 1}" for terminal, kind in terminals.items()]


def write(folder, name, lines):
    with open(os.path.join(folder, name), "w") as text:
        text.write("\n".join(lines) + "\n")


def main():
    grammar, spelled, trees_folder, folder = sys.argv[1:]
    kinds = kinds_of(grammar)
    terminals, pairs = spellings_of(spelled, kinds)
    sources = f"{os.path.basename(grammar)} and {os.path.basename(spelled)}"
    trees, crate = (os.path.basename(os.path.abspath(name)) for name in (trees_folder, folder))
    write(trees_folder, "src/terminal.rt", terminal_file(sources, terminals))
    write(folder, "src/spelling.rt", spelling_file(sources, trees, pairs))
    write(folder, "src/kind.rt", kind_file(sources, trees, crate, kinds, terminals))
    write(folder, "specs/Kinds.antt", kinds_file(sources, trees, kinds, terminals))
    print(f"{len(kinds)} kinds of token, {len(terminals)} terminals, {len(pairs)} spellings")


if __name__ == "__main__":
    main()
