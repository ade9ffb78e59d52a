"""Runs definitions of the files crates/*/specs/*.antt.

`definition("Rattle.gb_script.specs.Build", "built")` is the value of a definition, or a function where it has arguments.
What values are here:

    naturals, and lists of these as bytes     int, tuple
    lists                                     tuple
    options                                   None, Some
    booleans                                  bool
    records, and nodes of trees               Record
    pairs                                     Record, with the fields "0" and "1"
    variants of declared types                Variant

Only what the definitions of trees and of limits are written with is understood: equations by patterns, records and their
fields, `if`, functions `λ x. ..`, recursion on nodes by `para-`, and the operators and functions below.
"""
import functools
import os
import re
from dataclasses import dataclass
from typing import Any

CRATES = os.path.join(os.path.dirname(os.path.dirname(os.path.abspath(__file__))), "crates")


class Fault(Exception):
    """What is wrong with a definition, or what of it isn't understood."""


@dataclass
class Some:
    """An option that is there."""
    value: Any


class Record(dict):
    """A record, by the names of its fields."""


@dataclass
class Variant:
    """A value of a declared type, whose path is that of its crate, its file and the type."""
    type_path: str
    name: str
    arguments: tuple = ()


STANDARD = {
    "None": None,
    "Some": Some,
    "true": True,
    "false": False,
    "codes": lambda text: tuple(map(ord, text)),
    "count_by": lambda test, values: sum(1 for value in values if test(value)),
    "drop": lambda count, values: values[count:],
    "length": len,
    "map": lambda function, values: tuple(map(function, values)),
    "min": min,
    "nat_eq": lambda left, right: left == right,
    "nat_le": lambda left, right: left <= right,
    "nat_lt": lambda left, right: left < right,
    "slice_get": lambda values, at: Some(values[at]) if at < len(values) else None,
    "take": lambda count, values: values[:count],
}

# From the loosest to the tightest.
OPERATORS = [["||"], ["&&"], ["∷", "++"], ["+", "-"], ["^"]]
TO_THE_RIGHT = ["||", "&&", "∷", "++"]
OPERATIONS = {
    "∷": lambda left, right: (left,) + right,
    "++": lambda left, right: left + right,
    "+": lambda left, right: left + right,
    "-": lambda left, right: max(left - right, 0),
    "^": lambda left, right: left ** right,
}

TOKEN = re.compile(r"""(?:\s|--[^\n]*)*(\.?[A-Za-z_][\w'-]*(?:\.(?:[A-Za-z_][\w'-]*|\d+))*|\d+|"[^"]*"|\[\]|\+\+|\|\||&&|==|\S)""")


# Patterns: functions that tell whether a value is of their form, and put the values of variables into an environment.

def anything(value, environment):
    return True


def variable(name):
    def matches(value, environment):
        environment[name] = value
        return True
    return matches


def just(known):
    return lambda value, environment: value == known


def taken(parts, patterns):
    """What `parts` makes of a value is there, and of these forms."""
    def matches(value, environment):
        found = parts(value)
        if found is None:
            return False
        if len(found) != len(patterns):
            raise Fault("a pattern has not as many arguments as its constructor")
        for pattern, part in zip(patterns, found):
            if not pattern(part, environment):
                return False
        return True
    return matches


def in_option(value):
    return None if value is None else (value.value,)


def in_list(value):
    return (value[0], value[1:]) if value else None


def in_successor(value):
    return (value - 1,) if value else None


def in_variant(type_path, name):
    return lambda value: value.arguments if (value.type_path, value.name) == (type_path, name) else None


# Expressions: functions from an environment to a value.

def literal(value):
    return lambda environment: value


def with_fields(record, names):
    def value(environment):
        found = record(environment)
        for name in names:
            found = found[name]
        return found
    return value if names else record


def operation(operator, left, right):
    if operator == "||":
        return lambda environment: left(environment) or right(environment)
    if operator == "&&":
        return lambda environment: left(environment) and right(environment)
    run = OPERATIONS[operator]
    return lambda environment: run(left(environment), right(environment))


def record_of(base, fields):
    """A record of these fields, or another one with these fields changed."""
    def value(environment):
        record = Record(base(environment) if base else {})
        for name, expression in fields:
            if base and name not in record:
                raise Fault(f"no field {name} in a record of {', '.join(record)}")
            record[name] = expression(environment)
        return record
    return value


class Pair(Record):
    """A part of a node, and what a recursion makes of it, once that is asked for."""

    def __init__(self, part, value):
        super().__init__({"0": part})
        self.made = value

    def __missing__(self, name):
        self[name] = self.made(self["0"])
        return self[name]


def recursion(layer):
    """The function on nodes that comes of one on nodes whose parts are there with what it makes of them."""
    def value(node, *arguments):
        found = layer(Record(node, parts=tuple(Pair(part, value) for part in node["parts"])))
        return found(*arguments) if arguments else found
    return value


class Parser:
    """Reads the tokens of one side of an equation of a module."""

    def __init__(self, module, tokens, variables=()):
        self.module, self.tokens, self.variables = module, tokens, list(variables)
        self.at = 0

    def peek(self):
        return self.tokens[self.at] if self.at < len(self.tokens) else None

    def next(self):
        self.at += 1
        return self.tokens[self.at - 1]

    def expect(self, token):
        if self.next() != token:
            raise Fault(f"{token} expected in {' '.join(self.tokens)}")

    # Patterns.

    def patterns(self):
        patterns = []
        while self.peek() not in (None, ")", "∷"):
            patterns.append(self.plain_pattern())
        return patterns

    def plain_pattern(self):
        if self.peek() != "(":
            return self.named_pattern(self.next(), [])
        self.next()
        pattern = self.pattern()
        self.expect(")")
        return pattern

    def pattern(self):
        first = self.plain_pattern() if self.peek() == "(" else self.named_pattern(self.next(), self.patterns())
        if self.peek() != "∷":
            return first
        self.next()
        return taken(in_list, [first, self.pattern()])

    def named_pattern(self, name, patterns):
        constructor = self.module.constructor(name)
        if constructor:
            return taken(in_variant(*constructor), patterns)
        if name == "Some":
            return taken(in_option, patterns)
        if name == "None":
            return just(None)
        if name == "zero":
            return just(0)
        if name == "suc":
            return taken(in_successor, patterns)
        if name == "[]":
            return just(())
        if name == "_":
            return anything
        self.variables.append(name)
        return variable(name)

    # Expressions.

    def expression(self, level=0):
        if self.peek() == "if":
            return self.conditional()
        if level == len(OPERATORS):
            return self.application()
        left = self.expression(level + 1)
        while self.peek() in OPERATORS[level]:
            operator = self.next()
            left = operation(operator, left, self.expression(level if operator in TO_THE_RIGHT else level + 1))
        return left

    def conditional(self):
        parts = []
        for word in ("if", "then", "else"):
            self.expect(word)
            parts.append(self.expression())
        condition, then, otherwise = parts
        return lambda environment: then(environment) if condition(environment) else otherwise(environment)

    def application(self):
        constructor = self.module.constructor(self.peek())
        if constructor:
            self.next()
            arguments = self.arguments()
            return lambda environment: Variant(*constructor, tuple([each(environment) for each in arguments]))
        function, arguments = self.atom(), self.arguments()
        if not arguments:
            return function
        return lambda environment: function(environment)(*[each(environment) for each in arguments])

    def arguments(self):
        arguments = []
        while self.peek() not in [None, ")", "}", ";", "then", "else"] + sum(OPERATORS, []):
            arguments.append(self.atom())
        return arguments

    def atom(self):
        token = self.next()
        if token == "(":
            inner = self.expression()
            self.expect(")")
        elif token == "λ":
            return self.function()
        elif token == "[]":
            inner = literal(())
        elif token == "record":
            inner = self.record()
        elif token.isdigit():
            inner = literal(int(token))
        elif token.startswith('"'):
            inner = literal(token[1:-1].replace("\\\\", "\\"))
        else:
            inner = self.named(token)
        return with_fields(inner, self.next()[1:].split(".")) if (self.peek() or "").startswith(".") else inner

    def function(self):
        name = self.next()
        self.expect(".")
        self.variables.append(name)
        body = self.expression()
        return lambda environment: lambda argument: body({**environment, name: argument})

    def skip_type(self):
        depth = 0
        while True:
            depth += {"(": 1, ")": -1}.get(self.next(), 0)
            if depth == 0:
                return

    def record(self):
        base, fields = None, []
        if self.peek() != "{":
            base = self.atom()
        self.expect("{")
        while self.peek() != "}":
            name = self.next()
            self.expect("=")
            fields.append((name, self.expression()))
            if self.peek() == ";":
                self.next()
        self.expect("}")
        return record_of(base, fields)

    def named(self, name):
        constructor = self.module.constructor(name)
        if constructor:
            return literal(Variant(*constructor))
        if name.startswith("para-"):
            self.skip_type()
        first, *fields = name.split(".")
        if first in self.variables:
            return with_fields(lambda environment: environment[first], fields)
        return with_fields(lambda environment: self.module.value_of(first), fields)


class Definition:
    """A definition of a module, by its equations."""

    def __init__(self, module, name, equations):
        self.module, self.name, self.equations = module, name, equations
        self.count = None
        self.kept = None

    def parse(self):
        parsed = []
        for left, right in self.equations:
            pattern_side = Parser(self.module, left)
            patterns = pattern_side.patterns()
            parsed.append((patterns, Parser(self.module, right, pattern_side.variables).expression()))
        self.equations, self.count = parsed, len(parsed[0][0])

    def __call__(self, *arguments):
        if len(arguments) < self.count:
            return functools.partial(self, *arguments)
        if self.kept is None:
            return self.found(arguments)
        key = tuple(argument if isinstance(argument, int) else id(argument) for argument in arguments)
        if key not in self.kept:
            self.kept[key] = arguments, self.found(arguments)
        return self.kept[key][1]

    def found(self, arguments):
        """The value for arguments, by the first equation that is about them."""
        for patterns, body in self.equations:
            environment = {}
            for pattern, argument in zip(patterns, arguments):
                if not pattern(argument, environment):
                    break
            else:
                return body(environment)
        raise Fault(f"no equation of {self.module.path}.{self.name} is about its arguments")

    @functools.cached_property
    def value(self):
        self.parse()
        return self if self.count else self()


class Module:
    """A file of definitions."""

    def __init__(self, path):
        self.path = path
        self.others, self.used, self.definitions, self.values = {}, {}, {}, {}
        _, crate, *names = path.split(".")
        with open(os.path.join(CRATES, crate, *names) + ".antt", encoding="utf-8") as lines:
            for statement in statements(lines.read()):
                self.read(statement)

    def read(self, statement):
        other = re.fullmatch(r"use (\S+) as (\S+)", statement.strip())
        names = re.fullmatch(r"use (\S+)\.\{(.*)\}", statement.strip(), flags=re.DOTALL)
        if other:
            self.others[other[2]] = other[1]
        elif names:
            for item in names[2].split(","):
                name, _, new_name = item.strip().partition(" as ")
                self.used[new_name or name] = names[1], name
        elif not re.match(r"(abbrev|unfoldable|pub)\b", statement):
            self.read_equation(TOKEN.findall(statement))

    def read_equation(self, tokens):
        if "=" in tokens:
            middle = tokens.index("=")
            known = self.definitions.setdefault(tokens[0], Definition(self, tokens[0], []))
            known.equations.append((tokens[1:middle], tokens[middle + 1:]))

    def constructor(self, name):
        """The path of the type of a constructor, and its name; none where the name is no constructor."""
        first, _, variant = name.partition(".")
        if first in self.others:
            return type_path_of(self.others[first]), variant
        base, own_name = self.used.get(name, ("", ""))
        return (type_path_of(base), own_name) if base.endswith(".TheVariants") else None

    def value_of(self, name):
        if name not in self.values:
            self.values[name] = self.found(name)
        return self.values[name]

    def found(self, name):
        if name in self.definitions:
            return self.definitions[name].value
        if name not in self.used:
            raise Fault(f"{name} is not known in {self.path}")
        base, own_name = self.used[name]
        if base.startswith("Rattle.std."):
            return STANDARD[own_name]
        if own_name.startswith(("roll-", "out-")):
            return lambda record: record
        if own_name.startswith("para-"):
            return recursion
        if base.endswith(".TheConstants"):
            return constant(base.split(".")[1], base.split(".")[4], own_name)
        return definition(base, own_name)


def statements(text):
    """The statements of a file: lines that are indented, or begin with a closing bracket, go on the one before."""
    text = re.sub(r"^\s*--.*\n", "", text.replace("«", "").replace("»", ""), flags=re.MULTILINE)
    return re.split(r"\n(?=[^\s}])", text)


def type_path_of(variants):
    """The path of a type, from the one of its variants: Rattle.CRATE.specs.declared.FILE.TYPE.TheVariants."""
    _, crate, _, _, *path, _ = variants.split(".")
    return ".".join([crate] + path)


@functools.lru_cache(maxsize=None)
def module_at(path):
    return Module(path)


def definition(path, name):
    """The value of a definition, or a function."""
    return module_at(path).value_of(name)


def keeping(path, *names):
    """Lets definitions keep their values for arguments that they had before, from this call to the next one."""
    for name in names:
        definition(path, name).kept = {}


def lines_of(path):
    """The lines of a file, of which each byte is a character."""
    with open(path, encoding="latin-1", newline="\n") as text:
        return text.read().removesuffix("\n").split("\n")


def constant(crate, file, name):
    """A number that is declared in a source file."""
    source = "\n".join(lines_of(os.path.join(CRATES, crate, "src", file + ".rt")))
    return int(re.search(rf"pub const {name}: \w+ = (\d+);", source)[1])


def spelling_of(name):
    return "".join(map(chr, name))
