#!/usr/bin/env python3
"""Runs the definitions of which tree a text spells (specs/ of gb_script, with the actions of script.txt, and gb_limits) on
texts. That the code makes these trees is proved; that these trees are meant is looked at here.

    trees.py command|form|entry|hypothesis TEXT..
                               prints the tree of each text with its places, or its refusal with the place
    trees.py --check [FILE..]  tells where a tree is not what its text says, in the texts of crates/gb_scripts and in the commands
                               of each script FILE
    trees.py --random COUNT    .. in texts that are made by chance from the productions of script.txt

A text of crates/gb_scripts that stdout says to be refused must be refused with this code at this place. All other texts must
leave a tree and nothing else: written out again by the lines of trees.txt it must have the tokens of the text, each node must
begin at the token of its place, and forms and types must stand in brackets where they bind less tightly than what is around
them. Of goals those are looked at that stdout says to be read, line by line.

The patterns behind the form of a `have` have the place of what follows their `=>`.

Trees forget, and it makes no difference,

    - white space and comments;
    - a leading `+`, `-` or `*` of a tactic;
    - `-` before a module that a restriction excludes;
    - in which brackets the parameters of a module stand: `(A : T) (B : U)` is `(A : T, B : U)`;
    - braces around a block of one statement, and `else { }`;
    - which spelling a connective has, `&&` or `/\\`, and `||` or `\\/`.
"""
import itertools
import os
import random
import re
import sys
from dataclasses import dataclass, field

import grammar
from chance import Texts
from definitions import Fault, Record, Variant, constant, definition, keeping, lines_of, spelling_of
from texts import FINAL, Lexer, Refusal, commands_of, expected_answers, place_at

LIMITS = "Rattle.gb_limits.specs.Limits"
STARTS = ["command", "form", "entry", "hypothesis"]


# Reading.

@dataclass
class Reading:
    """What is read of a text: its tokens, the place of its end, the steps that derive it and the values that these leave."""
    tokens: list
    end: Record
    steps: list
    values: tuple

    @property
    def tree(self):
        """The one tree that is left."""
        if [value.name for value in self.values] != ["Tree"]:
            raise Fault(f"no tree is left, but {len(self.values)} values")
        return self.values[0].arguments[0]


def head_of(node):
    return node["head"].name


def step_of(step):
    """A step as a value of the definitions."""
    action, _, head = step.production.action.partition(".")
    heads = (Variant("gb_script.head.Head", head),) if head else ()
    rule = Record(takes=step.production.takes, action=Variant("gb_script.action.Action", action, heads),
                  mark=Variant("gb_script.action.Mark", step.production.mark or "Plain"))
    return Record(rule=rule, at=step.start)


class Reader:
    """Reads texts by the grammar, and runs the definitions on what it reads."""

    def __init__(self):
        self.grammar = grammar.grammar()
        self.readers = [grammar.Reader(self.grammar, stage) for stage in range(len(grammar.STAGES))]
        self.lexer = Lexer(list(self.grammar.kinds))
        self.built = definition("Rattle.gb_script.specs.Build", "built")
        self.depth_at, self.is_too_many = definition(LIMITS, "depth_at"), definition(LIMITS, "is_too_many")
        self.levels = constant("gb_limits", "limits", "LEVELS")

    def read(self, part, text, stage=0):
        """What is read of a text as this part."""
        tokens = self.lexer.tokens(text)
        self.lexer.check_left_out(tokens)
        return self.read_tokens(part, tokens, place_at(text, len(text)), stage)

    def read_tokens(self, part, tokens, end, stage):
        places = [token.place for token in tokens] + [end]
        steps, fault = self.readers[stage].derived(part, [token.kind for token in tokens])
        lexemes = [Record(terminal=Variant("gb_script.terminal.Terminal", token.terminal),
                          name=tuple(map(ord, token.spelling)), place=token.place) for token in tokens]
        text = Record(lexemes=tuple(lexemes), end=end)
        rules = tuple(map(step_of, steps))
        keeping(LIMITS, "walked", "brackets_behind", "taken", "stepped")
        if stage == 0:
            self.check_depth(text, rules, len(tokens) if fault is None else fault)
        if fault is not None:
            raise Refusal("E02", places[fault])
        for at, token in enumerate(tokens):
            if self.is_too_many(text, rules, at):
                raise Refusal("E28", token.place)
        for token in tokens:
            if token.spelling.isdigit() and int(token.spelling) >= 2 ** 127:
                raise Refusal("E20", token.place)
        return Reading(tokens, end, steps, self.built(text, rules))

    def check_depth(self, text, rules, fault):
        for at, lexeme in enumerate(text["lexemes"]):
            if self.depth_at(text, rules, fault, at) > self.levels:
                raise Refusal("E03", lexeme["place"])


# Trees, written out again.

@dataclass
class Word:
    """A token that is written, and the places that it is said to have or may have."""
    spelling: str
    places: list = field(default_factory=list)


ITEM = re.compile(r"""\$(?:(?P<from>-?\d+)\.\.(?P<to>-?\d+)?|(?P<at>-?\d+)(?:\.(?P<inner>\d+)|(?P<list>\*))?|(?P<own>text|\^))
                      (?P<test>[?!])?(?:\+(?P<behind>\d+))?(?:@(?P<line>\w+))?(?:(?P<mark>[<>~])(?P<level>\d+))?(?:/(?P<between>.+))?""", re.X)


class Writer:
    """Writes trees by the lines of trees.txt."""

    def __init__(self):
        self.lines, self.levels, self.misplaced = {}, {}, []
        for line in lines_of(os.path.join(grammar.TOOLS, "trees.txt")):
            start, _, words = line.partition(":")
            name, _, level = start.partition(" = ")
            if start and start[0] != "#":
                self.lines[name] = [ITEM.fullmatch(word) or word for word in words.split()]
                self.levels[name] = int(level or 12)

    def written(self, tree):
        """The words of a tree, and the nodes in it that would stand in brackets."""
        self.misplaced = []
        return self.words(tree), self.misplaced

    def words(self, node, line=None):
        """The words of a node, by the line of this name where its head has one."""
        name = f"{head_of(node)} {line}" if f"{head_of(node)} {line}" in self.lines else head_of(node)
        if name not in self.lines:
            raise Fault(f"trees.txt has no line {name}")
        return self.filled(node, self.lines[name])

    def filled(self, node, items):
        """The words of a line, with the parts of a node."""
        words, unwritten, skipping = [], set(range(len(node["parts"]))), False
        own = [item for item in items if not isinstance(item, str) and item["own"]]
        places = [] if any(item["own"] == "^" for item in own) else [node["place"]]
        if node["text"] and not any(item["own"] == "text" for item in own):
            raise Fault(f"{head_of(node)} has a text")
        for item in items:
            new = []
            if item == "$.":
                skipping = False
            elif skipping:
                continue
            elif isinstance(item, str):
                new = [Word(item)]
            elif item["own"] == "^":
                places = [node["place"]]
            elif item["own"] == "text":
                new = [Word(spelling_of(node["text"]))]
            else:
                found = self.found(node, item)
                if item["test"]:
                    skipping = bool(found) == (item["test"] == "!")
                if not item["test"] or not found:
                    unwritten -= self.numbers(node, item)
                if not item["test"]:
                    new = self.part_words(node, item, found)
            if new:
                new[0].places += places
                words, places = words + new, []
        if unwritten:
            raise Fault(f"parts {sorted(unwritten)} of {head_of(node)} are not written")
        return words

    def part_words(self, node, item, found):
        if item["mark"]:
            self.check_levels(found, item["mark"], int(item["level"]), self.levels[head_of(node)])
        words = []
        for element in found:
            words += [Word(item["between"])] if words and item["between"] else []
            words += self.words(element, item["line"])
        return words

    @staticmethod
    def numbers(node, item):
        """The numbers of the parts that an item speaks of."""
        count = len(node["parts"])
        if item["from"]:
            return set(range(count)[int(item["from"]):int(item["to"]) if item["to"] else None])
        numbers = [int(item["at"])] + ([int(item["behind"])] if item["behind"] else [])
        if not all(-count <= number < count for number in numbers):
            raise Fault(f"{head_of(node)} has {count} parts")
        return {number % count for number in numbers}

    def found(self, node, item):
        """The nodes that an item speaks of."""
        parts = [node["parts"][number] for number in sorted(self.numbers(node, item))]
        is_list = not item["from"] and any(item[name] for name in ("list", "inner", "test", "between"))
        if any((head_of(part) == "List") != is_list for part in parts):
            raise Fault(f"{item[0]} of {head_of(node)} is {'no' if is_list else 'a'} list")
        if is_list:
            parts = list(parts[0]["parts"])
        if item["behind"]:
            front, behind = parts
            return [Record(behind, parts=(front,) + behind["parts"], place=front["place"])]
        if item["inner"] and int(item["inner"]) >= len(parts):
            raise Fault(f"{item[0]} of {head_of(node)}: the list has {len(parts)} parts")
        return [parts[int(item["inner"])]] if item["inner"] else parts

    def goes_on(self, node):
        """From which level on an operator behind a node belongs to the end of the node; 13 where none does."""
        last = self.lines[head_of(node)][-1:]
        if not last or isinstance(last[0], str) or last[0]["mark"] not in ("~", ">"):
            return 13
        return int(last[0]["level"]) if last[0]["mark"] == "~" else self.goes_on(self.found(node, last[0])[-1])

    def check_levels(self, nodes, mark, level, operator):
        for at, node in enumerate(nodes):
            followed = mark == "<" or at + 1 < len(nodes)
            if self.levels.get(head_of(node), 0) < level or followed and operator >= self.goes_on(node):
                self.misplaced.append(node)


SPELLED_ALIKE = {"&&": "/\\", "||": "\\/"}


def remembered(reading):
    """The tokens of a text that its tree remembers, each with the places that may be told of it."""
    tokens = reading.tokens
    spelled = [SPELLED_ALIKE.get(token.spelling, token.spelling) for token in tokens]
    dropped, moved, later, before, behind = set(), set(), set(), [0] * len(tokens), [0] * len(tokens)
    for step in reading.steps:
        first, last = step.start, step.end - 1
        if step.part == "tactic" and spelled[first] in ("+", "-", "*"):
            moved.add(first)
        elif step.part == "excluded" and spelled[first] == "-":
            dropped.add(first)
        elif step.part == "more_module_parameters" and spelled[first:first + 2] == [")", "("]:
            spelled[first] = ","
            dropped.add(first + 1)
        elif step.part in ("block", "one_statement") and step.production.body == ["statement"]:
            before[first] += 1
            behind[last] += 1
        elif step.part == "alternative" and spelled[first:last + 1] == ["else", "{", "}"]:
            dropped.update((first, first + 1, last))
        elif step.part == "have_patterns":
            later.add(first - 1)
    words, places = [], []
    all_places = [token.place for token in tokens] + [reading.end]
    for at, token in enumerate(tokens):
        words += [Word("{")] * before[at]
        places += all_places[at:at + 2] if at in later else [token.place]
        if at not in dropped | moved:
            words.append(Word(spelled[at], places))
        if at not in moved:
            places = []
        words += [Word("}")] * behind[at]
    return words


def shown(value):
    """A tree in one line: the head of each node, its text, its place behind `@`, and its parts in brackets."""
    if "line" in value:
        return f"{value['line']}:{value['col']}"
    text = f" '{spelling_of(value['text'])}'" if value["text"] else ""
    parts = f"({', '.join(map(shown, value['parts']))})" if value["parts"] else ""
    return f"{head_of(value)}{text}@{shown(value['place'])}{parts}"


def differences(part, reading, writer):
    """What is wrong with the tree of a text."""
    try:
        words, misplaced = writer.written(reading.tree)
    except Fault as fault:
        return [str(fault)]
    words += [Word(".")] * (part == "command")
    expected = remembered(reading)
    if [word.spelling for word in words] != [word.spelling for word in expected]:
        return ["written: " + " ".join(word.spelling for word in words)]
    pairs = [(word, at) for word, other in zip(words, expected) for at in word.places if at not in other.places]
    found = [f"no place of {word.spelling}: {shown(at)}" for word, at in pairs]
    return found + [f"no brackets around {shown(form)}" for form in misplaced]


# What is looked at.

class Check:
    """Looks at texts, prints what is wrong, and counts."""

    def __init__(self):
        self.reader, self.writer = Reader(), Writer()
        self.read = self.refused = self.wrong = 0

    def look(self, part, text, stage=0, expected=None):
        """Looks at a text. What is expected is `ok` or a refusal; of most texts nothing is known before."""
        found, answer = [], "ok"
        try:
            found = differences(part, self.reader.read(part, text, stage), self.writer)
        except Refusal as refusal:
            answer = refusal.answer
        if expected not in (answer, None):
            found.append(f"{answer}, and not {expected}")
        self.tell(part, text, found, answer)

    def look_at_goal(self, text, expected):
        """Looks at the lines of a goal; what is expected is `ok`, with a letter for each line before the conclusion."""
        tokens, end = self.reader.lexer.tokens(text), place_at(text, len(text))
        found, letters, conclusion = [], "", False
        for _, group in itertools.groupby(tokens, lambda token: token.place["line"]):
            line = list(group)
            if [token.spelling for token in line] == ["-", "-", "-"] and not conclusion:
                conclusion = True
                continue
            for part in ["form"] if conclusion else ["entry", "hypothesis"]:
                try:
                    reading = self.reader.read_tokens(part, line, end, 1)
                except Refusal:
                    continue
                found += differences(part, reading, self.writer)
                letters += {"form": "", "entry": "b", "hypothesis": "h"}[part]
                break
            else:
                found.append("a line is refused")
        if f"ok {letters}".strip() != expected:
            found.append(f"read as {letters}")
        self.tell("goal", text, found, "ok")

    def tell(self, part, text, found, answer):
        for difference in found:
            print(f"{part}: {text[:300]}\n    {difference[:600]}")
        self.read, self.refused, self.wrong = self.read + (answer == "ok"), self.refused + (answer != "ok"), self.wrong + bool(found)

    def told(self):
        """Prints how many texts were looked at; tells whether nothing is wrong."""
        print(f"{self.read} texts read and written again, {self.refused} refused, {self.wrong} with a difference")
        return self.wrong == 0


def answer_of(line, given):
    """An answer of stdout without the text that stands behind it."""
    return given.removesuffix(line).strip()


def check(files):
    looking = Check()
    for what, text, line, given in expected_answers():
        expected = answer_of(line, given)
        if what in STARTS:
            looking.look(what, text, expected=expected)
        elif expected.startswith("ok"):
            looking.look_at_goal(text, expected)
    for file in files:
        for text in commands_of(file):
            looking.look("command", text)
    return looking.told()


def random_texts(reader, count, chance):
    """Texts by chance from the productions, each of them by turns, with the part and the stage of each text."""
    spellings = {}
    for spelling, kind in reader.lexer.spellings().items():
        spellings.setdefault(kind, []).append(spelling)
    makers = []
    for stage in range(len(grammar.STAGES)):
        bodies = {part.name: [p.body for p in part.productions if p.stage <= stage] for part in reader.grammar.parts.values()}
        makers.append(Texts({name: its for name, its in bodies.items() if its}, chance))
    productions = reader.grammar.productions()
    for number in range(count):
        part, production = productions[number % len(productions)]
        stage = max(production.stage, chance.choice([0, 0, 1]))
        starts = [start for start in (STARTS[1:] if stage else STARTS) if start in makers[stage].distances(part.name)]
        if not starts:
            stage, starts = 0, ["command"]
        start = chance.choice(starts)
        kinds = makers[stage].made(start, part.name, production.body, chance.choice([5, 20, 60, 150]))
        words = [chance.choice(spellings.get(kind, ["."])) for kind in kinds]
        yield start, "".join(word if word in (".", FINAL) else word + " " for word in words), stage


def check_random(count):
    looking = Check()
    for start, text, stage in random_texts(looking.reader, count, random.Random(1)):
        looking.look(start, text, stage)
    return looking.told()


def main():
    sys.setrecursionlimit(1000000)
    words = sys.argv[1:]
    if words[:1] == ["--check"]:
        sys.exit(not check(words[1:]))
    if words[:1] == ["--random"] and len(words) == 2:
        sys.exit(not check_random(int(words[1])))
    if len(words) < 2 or words[0] not in STARTS:
        sys.exit(__doc__)
    reader = Reader()
    for text in words[1:]:
        try:
            print(shown(reader.read(words[0], os.fsencode(text).decode("latin-1"), int(words[0] in STARTS[2:])).tree))
        except Refusal as refusal:
            print(refusal.answer)


if __name__ == "__main__":
    main()
