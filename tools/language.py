#!/usr/bin/env python3
"""Compares the grammar of docs/LANGUAGE.md with the table of script.txt.

    language.py --random COUNT         texts made by chance, from the one or the other by turns, each as it is and with a
                                       token changed: both must read a text, or refuse it at the same token
    language.py command|form|entry TEXT..
                                       what the grammar of the document says of each text

The grammar is what stands between lines of ``` in the document: rules `name = ..`, of which several may stand on a line, with
tokens in quotes, names of rules, `|`, `( .. )`, `[ .. ]` and `*`. `x` is a word that isn't reserved, `NUM` a number, `FINAL` a
final dot; `!"("` stands where no `(` follows. A rule that begins with `..` has what stands behind it in goals besides. It is
read by Earley's method as a grammar without context, so nothing is assumed of how a text is to be read.

Texts are commands and forms, and in goals forms and lines of the context.
"""
import os
import random
import re
import sys

import grammar
from chance import Texts
from texts import FINAL, Lexer

DOCUMENT = os.path.join(os.path.dirname(grammar.TOOLS), "docs", "LANGUAGE.md")
SYMBOL = re.compile(r'\s*(!?"[^"]*"|\.\.|[A-Za-z]+|[][()|*=])')
OWN_WORDS = ["rule", "have", "law"]  # the rules whose words aren't reserved
STARTS = {"command": ["command"], "form": ["form"], "entry": ["entry", "hypothesis"]}  # with their parts of the table
KINDS = {"x": "Name", "NUM": "Number", "FINAL": "Final"}  # what the symbols are that aren't spelled
END = ""


# The grammar of the document.

class Rules:
    """The rules of a text as bodies of parts: an option and what may stand again are parts of their own."""

    def __init__(self, text, goal):
        self.symbols, self.at = [], 0
        self.bodies, self.words = {}, {}
        for block in re.findall(r"^```\n(.*?)^```$", text, re.M | re.S):
            self.symbols, self.at = SYMBOL.findall(block), 0
            while self.at < len(self.symbols):
                self.rule(goal)

    def peek(self):
        return self.symbols[self.at] if self.at < len(self.symbols) else "end"

    def take(self, *symbols):
        """Tells whether one of these symbols is next, and leaves it behind."""
        taken = self.peek() in symbols
        self.at += taken
        return taken

    def rule(self, goal):
        name, begin = self.peek(), self.at
        self.at += 2
        more = self.take("..")
        if more:
            self.take("|")
        bodies = self.alternatives()
        self.words.setdefault(name, []).extend(re.findall(r'"([A-Za-z_]\w*)"', " ".join(self.symbols[begin:self.at])))
        if not more:
            self.bodies[name] = bodies
        elif goal:
            self.bodies[name] = self.bodies[name] + bodies

    def alternatives(self):
        bodies = [self.body()]
        while self.take("|"):
            bodies.append(self.body())
        return bodies

    def body(self):
        body = []
        while self.peek() not in ("|", ")", "]", "end") and self.symbols[self.at + 1:self.at + 2] != ["="]:
            body.append(self.element())
        return body

    def element(self):
        symbol = self.peek()
        self.at += 1
        if symbol in ("(", "["):
            bodies = self.alternatives()
            if not self.take(")" if symbol == "(" else "]"):
                sys.exit(f"language.py: a bracket isn't closed before {' '.join(self.symbols[self.at:][:5])}")
            symbol = self.part(bodies + ([[]] if symbol == "[" else []))
        while self.take("*"):
            again = self.part([[]])
            self.bodies[again].append([again, symbol])
            symbol = again
        return symbol

    def part(self, bodies):
        name = f"#{len(self.bodies)}"
        self.bodies[name] = bodies
        return name


def grammar_of_document(goal):
    """The bodies of the document's rules, and the words that it reserves."""
    with open(DOCUMENT, encoding="utf-8") as text:
        rules = Rules(text.read(), goal)
    unknown = {s for bodies in rules.bodies.values() for body in bodies for s in body if s[0] not in '!"'} - set(rules.bodies) - {"x", "NUM", "FINAL"}
    if unknown:
        sys.exit(f"language.py: no rules: {', '.join(sorted(unknown))}")
    return rules.bodies, {word for name, words in rules.words.items() if name not in OWN_WORDS for word in words}


class Recogniser:
    """Finds the first token at which no text of a grammar goes on."""

    def __init__(self, bodies, reserved):
        self.bodies, self.reserved = bodies, reserved
        self.symbols, self.parts, self.begins = [], [], {}  # by the number of a place in a body; a body ends with None
        for part, its in bodies.items():
            self.begins[part] = []
            for body in its:
                self.begins[part].append(len(self.symbols))
                self.symbols += body + [None]
                self.parts += [part] * (len(body) + 1)
        self.empty, self.first = set(), {part: set() for part in bodies}
        self.close()
        self.predictions, self.fitting = {}, {}

    def close(self):
        """Which parts may be empty, and with what their texts begin."""
        before = None
        while before != (before := (len(self.empty), sum(map(len, self.first.values())))):
            for part, its in self.bodies.items():
                for body in its:
                    begins, may_be_empty = self.beginning(body)
                    self.first[part] |= begins
                    if may_be_empty:
                        self.empty.add(part)

    def beginning(self, body):
        found = set()
        for symbol in body:
            if symbol not in self.bodies and symbol[0] != "!":
                return found | {symbol}, False
            found |= self.first.get(symbol, set())
            if symbol in self.bodies and symbol not in self.empty:
                return found, False
        return found, True

    def symbols_of(self, token):
        """The symbols that a token fits."""
        if token not in self.fitting:
            found = {f'"{token}"', "FINAL" if token == FINAL else ""}
            if token.isdigit():
                found.add("NUM")
            if re.match(r"[A-Za-z_]", token) and token not in self.reserved:
                found.add("x")
            self.fitting[token] = found
        return self.fitting[token]

    def predicted(self, part, token):
        """The bodies of a part that may stand before a token."""
        if (part, token) not in self.predictions:
            fits = self.symbols_of(token)
            beginnings = zip(self.begins[part], map(self.beginning, self.bodies[part]))
            self.predictions[part, token] = [begin for begin, (first, empty) in beginnings if empty or first & fits]
        return self.predictions[part, token]

    def fault(self, start, tokens):
        """The number of the first token with which no text goes on, their count where the text ends too soon; -1 for a text."""
        waiting, items = [], [(begin, 0) for begin in self.begins[start]]
        for at, token in enumerate(tokens + [END]):
            items, whole = self.column(items, at, token, start, waiting)
            if not items and not (whole and token == END):
                return at
        return -1

    def column(self, items, at, token, start, waiting):
        """The items behind a token from those before it, and whether a text ends before it."""
        fits = self.symbols_of(token)
        here, behind, whole = {}, set(), False
        waiting.append(here)
        seen, work = set(items), list(items)

        def add(item):
            if item not in seen:
                seen.add(item)
                work.append(item)
        while work:
            place, origin = work.pop()
            symbol = self.symbols[place]
            if symbol is None:
                whole |= origin == 0 and self.parts[place] == start
                for before, begin in waiting[origin].get(self.parts[place], ()) if origin < at else ():
                    add((before + 1, begin))
            elif symbol in self.bodies:
                if symbol not in here:
                    here[symbol] = []
                    for begin in self.predicted(symbol, token):
                        add((begin, at))
                here[symbol].append((place, origin))
                if symbol in self.empty:
                    add((place + 1, origin))
            elif symbol[0] == "!":
                if symbol[1:] not in fits:
                    add((place + 1, origin))
            elif symbol in fits:
                behind.add((place + 1, origin))
        return behind, whole


# The table.

class Table:
    """The table of script.txt at a stage, as bodies of parts and as it reads."""

    def __init__(self, table, stage, spellings):
        self.spellings, self.reader = spellings, grammar.Reader(table, stage)
        bodies = {part.name: [p.body for p in part.productions if p.stage <= stage] for part in table.parts.values()}
        self.bodies = {name: its for name, its in bodies.items() if its}

    def kind_of(self, token):
        return self.spellings.get(token) or ("Number" if token.isdigit() else "Name")

    def fault(self, start, tokens):
        """As that of a recogniser, of the parts of the table that a start stands for."""
        kinds = [self.kind_of(token) for token in tokens]
        faults = [self.reader.derived(part, kinds)[1] for part in STARTS[start]]
        return -1 if None in faults else max(faults)


# Comparing.

class Comparison:
    """Both grammars at a stage, and texts made by chance from them."""

    def __init__(self, table, stage, spellings, chance):
        self.chance, self.spellings = chance, spellings
        self.table = Table(table, stage, spellings)
        bodies, reserved = grammar_of_document(stage == 1)
        self.document = Recogniser(bodies, reserved)
        self.starts = ["form", "entry"] if stage else ["command", "form"]
        self.makers = [Texts(self.table.bodies, chance), Texts(bodies, chance)]
        self.wanted = []
        for maker in self.makers:
            reached = set().union(*[self.reached(maker.bodies, start) for start in self.starts])
            self.wanted.append([(part, body) for part, its in maker.bodies.items() if part in reached for body in its])

    def reached(self, bodies, start):
        """The parts that texts may have within."""
        found, new = set(), {start} | set(STARTS[start]) & set(bodies)
        while new:
            found |= new
            new = {s for part in new for body in bodies.get(part, []) for s in body if s in bodies} - found
        return found

    def text(self, number):
        """A text from the one grammar or the other: what it is, and its tokens."""
        maker, wanted = self.makers[number % 2], self.wanted[number % 2]
        part, body = wanted[number // 2 % len(wanted)]
        starts = [(start, own) for start in self.starts for own in ([start] if number % 2 else STARTS[start]) if own in maker.distances(part)]
        start, own = self.chance.choice(starts)
        symbols = maker.made(own, part, body, self.chance.choice([5, 15, 40, 80]))
        return start, [token for symbol in symbols for token in self.spelled(symbol)]

    def spelled(self, symbol):
        """The token of a symbol of the one grammar or the other, or none."""
        if symbol[0] in '"!':
            return [symbol.strip('"')] if symbol[0] == '"' else []
        spelled = [token for token, kind in self.spellings.items() if kind == KINDS.get(symbol, symbol)]
        return [self.chance.choice(spelled)] if spelled else []

    def compared(self, start, tokens):
        """Whether a text is read, and a line that tells where the grammars say something else."""
        faults = [grammar.fault(start, tokens) for grammar in (self.table, self.document)]
        if faults[0] == faults[1]:
            return faults[0] == -1, None
        said = ["read" if fault == -1 else f"refused at {(tokens + ['the end'])[fault]} ({fault})" for fault in faults]
        return False, f"{start}: {' '.join(tokens)}\n    by the table {said[0]}, by the document {said[1]}"


def compare(count):
    """Prints the differences on texts made by chance; tells whether there are none."""
    table, chance = grammar.grammar(), random.Random(1)
    spellings = Lexer(list(table.kinds)).spellings()
    comparisons = [Comparison(table, stage, spellings, chance) for stage in range(len(grammar.STAGES))]
    read = different = 0
    for number in range(count):
        comparison = comparisons[number // 2 % 3 == 2]
        start, tokens = comparison.text(number)
        for text in (tokens, comparison.makers[0].changed(tokens, list(spellings))):
            is_read, difference = comparison.compared(start, text)
            read, different = read + is_read, different + bool(difference)
            if difference:
                print(difference)
    print(f"{2 * count} texts, {read} of them read by both, {different} differences")
    return different == 0


def main():
    words = sys.argv[1:]
    if words[:1] == ["--random"] and len(words) == 2:
        sys.exit(not compare(int(words[1])))
    if len(words) < 2 or words[0] not in STARTS:
        sys.exit(__doc__)
    lexer = Lexer(list(grammar.grammar().kinds))
    recogniser = Recogniser(*grammar_of_document(True))
    for text in words[1:]:
        tokens = [FINAL if token.kind == "Final" else token.spelling for token in lexer.tokens(text)]
        fault = recogniser.fault(words[0], tokens)
        print("read" if fault == -1 else f"refused at {(tokens + ['the end'])[fault]}")


if __name__ == "__main__":
    main()
