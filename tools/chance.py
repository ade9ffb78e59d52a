"""Texts of a grammar that are made by chance.

A grammar is a dict of the bodies of each of its parts, each a list of symbols; a symbol that is no part is a token.
"""
import functools


class Texts:
    """Makes texts of a grammar."""

    def __init__(self, bodies, chance):
        self.bodies, self.chance = bodies, chance
        self.heights = {}
        self.measure()

    def measure(self):
        """How high the lowest tree of each part is."""
        new = True
        while new:
            new = {}
            for part, bodies in self.bodies.items():
                below = [[self.heights.get(s) for s in body if s in self.bodies] for body in bodies]
                known = [max(heights, default=0) + 1 for heights in below if None not in heights]
                if part not in self.heights and known:
                    new[part] = min(known)
            self.heights.update(new)

    @functools.lru_cache(maxsize=None)
    def distances(self, target):
        """How far the parts are from one that their texts may have within; those that may not aren't there."""
        found, new = {target: 0}, True
        while new:
            new = {part: max(found.values()) + 1 for part, bodies in self.bodies.items()
                   if part not in found and any(s in found for body in bodies for s in body)}
            found.update(new)
        return found

    def made(self, start, target, wanted, budget):
        """The tokens of a text of a part that has this body of another part within; beyond a budget it ends soon."""
        far = self.distances(target)
        stack, tokens = [(start, True)], []
        while stack:
            symbol, leads = stack.pop()
            if symbol not in self.bodies:
                tokens.append(symbol)
                continue
            if leads and symbol == target:
                body, leads = wanted, False
            elif leads:
                nearest = min(far.get(s, len(far)) for body in self.bodies[symbol] for s in body)
                body = self.chance.choice([b for b in self.bodies[symbol] if any(far.get(s) == nearest for s in b)])
            else:
                body = self.chance.choice(self.fitting(symbol, len(tokens) + len(stack) < budget))
            at = min(range(len(body)), key=lambda i: far.get(body[i], len(far))) if leads else None
            stack += [(inner, i == at) for i, inner in enumerate(body)][::-1]
        return tokens

    def fitting(self, part, any_body):
        """The bodies of a part, or the lowest ones alone."""
        return self.bodies[part] if any_body else [
            body for body in self.bodies[part]
            if all(self.heights[s] < self.heights[part] for s in body if s in self.bodies)]

    def changed(self, tokens, others):
        """The tokens with one left out, put in or put in the place of one."""
        at = self.chance.randrange(len(tokens) + 1)
        return tokens[:at] + [self.chance.choice(others)] * self.chance.choice([0, 1]) + tokens[at + self.chance.choice([0, 1]):]
