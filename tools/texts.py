"""Texts: their tokens, the texts of crates/gb_scripts with what is expected of them, the commands of scripts."""
import os
import re
from dataclasses import dataclass

import spellings
from definitions import CRATES, Record, definition, lines_of, spelling_of
from grammar import TOOLS

TEXTS = os.path.join(CRATES, "gb_scripts")
LEFT_OUT = os.path.join(CRATES, "gb_limits", "src", "left_out.rt")
FINAL = ". "  # the final dot, where tokens are spelled; that of a path is "."


class Refusal(Exception):
    """A text is refused, with a code and a place."""

    def __init__(self, code, place):
        self.answer = f"{code} {place['line']} {place['col']}"


@dataclass
class Token:
    kind: str
    terminal: str
    spelling: str
    place: Record


def place_at(text, at):
    return Record(file=0, line=text.count("\n", 0, at) + 1, col=at - text.rfind("\n", 0, at))


def blank_size(text, at):
    """The size of the white space or the comment at a position; 0 where none stands there."""
    if text[at] in " \t\r\n":
        return 1
    if not text.startswith("(*", at):
        return 0
    depth = 0
    for mark in re.compile(r"\(\*|\*\)").finditer(text, at):
        depth += 1 if mark[0] == "(*" else -1
        if depth == 0:
            return mark.end() - at
    return len(text) - at


class Lexer:
    """Finds the tokens of texts: their symbols are those of gb_lex."""

    def __init__(self, kinds):
        triples, pairs, singles = (definition("Rattle.gb_lex.specs.Symbol", name) for name in ("triples", "pairs", "singles"))
        symbols = [re.escape(spelling_of(name)) for name in triples + pairs] + [re.escape(chr(byte)) for byte in singles]
        self.pattern = re.compile("|".join([
            r"(?P<Name>[A-Za-z_][A-Za-z0-9_']*)", r"(?P<Number>[0-9]+)", r"(?P<Dot>\.(?=[A-Za-z_]))",
            r"(?P<Final>\.(?=[ \t\r\n]|\(\*|\Z))", f"(?P<Other>{'|'.join(symbols)})"]))
        terminals, spelled = spellings.spellings_of(os.path.join(TOOLS, "spellings.txt"), kinds)
        self.known = {spelling: (terminals[terminal], terminal) for spelling, terminal in spelled}
        self.left_out = [word for line in lines_of(LEFT_OUT) for word in re.findall(r'\*b"(\w+) *"', line)]

    def tokens(self, text):
        tokens, at = [], 0
        while at < len(text):
            size = blank_size(text, at)
            if not size:
                found = self.pattern.match(text, at)
                if not found:
                    raise Refusal("E01", place_at(text, at))
                group, spelling = found.lastgroup, found[0]
                known = (group, group) if group == "Final" else self.known.get(spelling, (group, group))
                tokens.append(Token(*known, spelling, place_at(text, at)))
                size = len(spelling)
            at += size
        return tokens

    def check_left_out(self, tokens):
        """Refuses the first word that is left out."""
        for before, token in zip([None] + tokens, tokens):
            behind = (before and before.spelling, token.spelling)
            if token.spelling in self.left_out or behind in (("{", "+"), ("proc", "*")):
                raise Refusal("E26", token.place)

    def spellings(self):
        """The kind of each spelling of the language, and of some names and numbers and the final dot."""
        kinds = {spelling: kind for spelling, (kind, _) in self.known.items()}
        return {**kinds, "x": "Name", "M": "Name", "y'": "Name", "3": "Number", "17": "Number", "00": "Number", FINAL: "Final"}


def expected_answers():
    """What each text of gb_scripts is that is only read, the text, its line in the file, and the line that is expected for it."""
    words, answers = lines_of(os.path.join(TEXTS, "args")), iter(lines_of(os.path.join(TEXTS, "stdout")))
    for what, file in zip(words[::2], words[1::2]):
        if what not in ("command", "form", "repeated", "goal"):
            return
        for line in lines_of(os.path.join(TEXTS, "data", file)):
            if what == "repeated":
                count, first, middle, last = line.split(";", 3)
                yield "form", first * int(count) + middle + last * int(count), line, next(answers)
            else:
                yield what, line.replace("\\n", "\n") if what == "goal" else line, line, next(answers)


def commands_of(path):
    """The commands of a script."""
    with open(path, encoding="latin-1") as script:
        text = script.read()
    start = at = 0
    while at < len(text):
        size = blank_size(text, at)
        if not size:
            found = re.compile(r"[A-Za-z_][A-Za-z0-9_']*|\.(?=[ \t\r\n]|\(\*|\Z)|.", re.S).match(text, at)
            size = len(found[0])
            if found[0] == ".":
                yield text[start:at + 1]
                start = at + 1
        at += size
