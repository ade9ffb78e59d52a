"""The grammar of script.txt, and what is claimed of its parts.

The text has one line each for

    kinds NAME ( ) => ...      the kinds of token, from number 1 on, in this order; there may be several such lines
    start form goal            the parts that a text may be
    part form                  the productions that follow are of this part
    part else_part greedy      .. and its empty production may not stand before a token that begins another of its
                               productions (an optional `else` belongs to the nearest `if`)
    Action.Head: a b c         a production: an action of gb_script, maybe with a head, and its body, maybe of no symbols
    Action.Head/2: a b c       .. whose action is of so many values: the first ones of the parts, and all where no number
                               stands there
    Action: a b !Mark          .. with what it begins or ends among the levels and chains of a text, where that is anything
    Action: a b @goal          .. of a later stage; the stages are none and '@goal', in this order

A word that names a part is that part; every other word of a body is a kind of token. Lines that begin with '#' and empty
lines are skipped. A part where one token does not decide is reported.
"""
import os
import re
import sys

TOOLS = os.path.dirname(os.path.abspath(__file__))
SCRIPT = os.path.join(TOOLS, "script.txt")
PRODUCTION = re.compile(r"([A-Z][A-Za-z]*(?:\.[A-Z][A-Za-z]*)?)(?:/(\d+))?:(.*?)(?:!(\w+))?\s*(@goal)?")
STAGES = ["", "@goal"]


class Production:
    """A production of a part; `takes` is of how many values its action is, once that is known."""

    def __init__(self, action, takes, body, mark, stage):
        self.action, self.takes, self.body = action, takes, body
        self.mark, self.stage = mark, stage

    @property
    def head(self):
        return self.action.partition(".")[2]


class Part:
    def __init__(self, name, greedy):
        self.name, self.greedy = name, greedy
        self.productions = []
        self.nullable, self.first, self.follow = False, set(), set()
        self.weight = self.height = self.stage = self.width = None


def fail(message):
    sys.exit("grammar.py: " + message)


def parse(lines):
    kinds, starts, parts, part = [], [], {}, None
    for number, line in enumerate(lines, 1):
        word, *words = line.split() or ["#"]
        found = PRODUCTION.fullmatch(line.strip())
        if word[0] == "#":
            continue
        if word == "kinds":
            kinds += words
        elif word == "start":
            starts += words
        elif word == "part":
            if words[0] in parts:
                fail(f"line {number}: part {words[0]} is there twice")
            part = parts[words[0]] = Part(words[0], "greedy" in words)
        elif found and part:
            action, takes, body, mark, stage = found.groups()
            part.productions.append(Production(action, int(takes) if takes else None, body.split(), mark, STAGES.index(stage or "")))
        else:
            fail(f"line {number}: cannot be read: {line}")
    return kinds, starts, parts


class Grammar:
    """The parts with the least claims: nullable, first, follow and weight of each, and heights that serve each stage."""

    def __init__(self, kinds, starts, parts):
        self.kinds = {kind: number for number, kind in enumerate(kinds, 1)}
        self.names = ["the end"] + kinds
        self.starts, self.parts = starts, parts
        self.check_names()
        for start in starts:
            parts[start].follow.add(0)
        self.close()
        self.weigh()
        for stage in range(len(STAGES)):
            self.measure(stage)
        for part in parts.values():
            if part.height is None:
                fail(f"part {part.name} has no finite text")
        self.check_stages()
        self.count_values()
        self.parts = dict(sorted(parts.items(), key=lambda item: item[1].stage))
        self.numbers = {name: number for number, name in enumerate(self.parts)}

    def productions(self):
        return [(part, production) for part in self.parts.values() for production in part.productions]

    def check_names(self):
        if len(self.kinds) != len(self.names) - 1:
            fail("a kind of token is listed twice")
        if len(self.kinds) > 127:
            fail("more than 127 kinds of token")
        if len(self.parts) > 255:
            fail("more than 255 parts")
        for _, production in self.productions():
            for symbol in production.body:
                if symbol not in self.parts and symbol not in self.kinds:
                    fail(f"in {production.action}: {symbol} is no part and no kind of token")
        for start in self.starts:
            if start not in self.parts:
                fail(f"start part {start} is not there")

    def nullable(self, body):
        return all(s in self.parts and self.parts[s].nullable for s in body)

    def first(self, body):
        found = set()
        for symbol in body:
            if symbol not in self.parts:
                return found | {self.kinds[symbol]}
            found |= self.parts[symbol].first
            if not self.parts[symbol].nullable:
                return found
        return found

    def close(self):
        changed = True
        while changed:
            changed = False
            for part, production in self.productions():
                body = production.body
                if self.nullable(body) and not part.nullable:
                    part.nullable = changed = True
                changed |= self.grow(part.first, self.first(body))
                for i, symbol in enumerate(body):
                    if symbol in self.parts:
                        after = self.first(body[i + 1:])
                        if self.nullable(body[i + 1:]):
                            after = after | part.follow
                        changed |= self.grow(self.parts[symbol].follow, after)

    @staticmethod
    def grow(into, more):
        if more <= into:
            return False
        into |= more
        return True

    def lead(self, body):
        total = 0
        for symbol in body:
            if symbol not in self.parts:
                return total + 1
            part = self.parts[symbol]
            if part.weight is None:
                return None
            total += part.weight
            if not part.nullable:
                return total
        return total

    def weigh(self):
        """Weights fall when a part is opened; there are none where a part begins with itself."""
        for _ in self.parts:
            for part in self.parts.values():
                leads = [self.lead(production.body) for production in part.productions]
                if part.weight is None and None not in leads:
                    part.weight = max(leads) + 1
        for part in self.parts.values():
            if part.weight is None:
                fail(f"part {part.name} may begin with itself")

    def measure(self, stage):
        """Heights fall towards a text that is finite and of this stage."""
        for _ in self.parts:
            for part in self.parts.values():
                heights = []
                for production in part.productions:
                    below = [self.parts[s].height for s in production.body if s in self.parts]
                    fits = production.stage <= stage and not (part.greedy and self.nullable(production.body))
                    if fits and None not in below:
                        heights.append(max([h + 1 for h in below] or [0]))
                if part.height is None and heights:
                    part.height, part.stage = min(heights), stage

    def check_stages(self):
        for part, production in self.productions():
            for symbol in production.body:
                if symbol in self.parts and self.parts[symbol].stage > production.stage:
                    fail(f"{part.name}: {production.action} is of an earlier stage than {symbol}")

    def count_values(self):
        """How many values each part has, and of how many those actions are that tell no number."""
        for _ in self.parts:
            for part, production in self.productions():
                widths = [self.parts[s].width for s in production.body if s in self.parts]
                if None not in widths:
                    whole = sum(widths)
                    if production.takes is None:
                        production.takes = whole
                    made = {"Nothing": 0, "Pass": production.takes}.get(production.action, 1)
                    part.width = made + whole - production.takes

    def rows(self):
        """The rows: part, production, starts, stops."""
        rows, conflicts = [], []
        for part in self.parts.values():
            taken = {}
            for production in part.productions:
                stops = set()
                empty = self.nullable(production.body)
                if part.greedy and empty:
                    for other in part.productions:
                        if other is not production:
                            stops |= self.first(other.body)
                starts = self.first(production.body)
                if empty:
                    starts = starts | (part.follow - stops)
                for kind in starts:
                    if kind in taken:
                        conflicts.append(f"{part.name}: {taken[kind]} and {production.action} at {self.names[kind]}")
                    taken[kind] = production.action
                rows.append((part, production, starts, stops))
        if conflicts:
            fail("one token does not decide\n  " + "\n  ".join(conflicts))
        return rows


class Step:
    """A production of a part, the first of the tokens that it derives, and the one behind the last."""

    def __init__(self, part, production, start):
        self.part, self.production, self.start, self.end = part, production, start, start


class Reader:
    """Derives texts, by the productions of the stages up to one."""

    def __init__(self, grammar, stage):
        self.kinds = grammar.kinds
        self.choices = {name: {} for name in grammar.parts}
        for part, production, starting, stopping in grammar.rows():
            if production.stage <= stage:
                self.choices[part.name].update((kind, production) for kind in starting - stopping)

    def derived(self, part, kinds):
        """The steps that derive these kinds of token, and None; or those before the first token that can't follow, and
        its number."""
        numbers = [self.kinds[kind] for kind in kinds] + [0]
        stack, steps, at = [part], [], 0
        while stack:
            symbol = stack.pop()
            if isinstance(symbol, Step):
                symbol.end = at
            elif symbol in self.choices:
                production = self.choices[symbol].get(numbers[at])
                if production is None:
                    break
                steps.append(Step(symbol, production, at))
                stack += [steps[-1]] + production.body[::-1]
            elif numbers[at] == self.kinds[symbol]:
                at += 1
            else:
                break
        else:
            if at == len(kinds):
                return steps, None
        return [step for step in steps if step.start < at], at


def grammar():
    """The grammar of script.txt."""
    with open(SCRIPT, encoding="utf-8") as lines:
        return Grammar(*parse(lines))
