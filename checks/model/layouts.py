"""The partitions of a stream: who holds which places, from when and until when."""
from .refusal import Refusal

MOST_PARTS = 65536
WIDEST = 64


class Part:
    """It holds the places from `low` to below `high` (None is no end), from `born` to below `until` (None is still)."""

    def __init__(self, token, parents, low, high, born):
        self.token = token
        self.parents = parents
        self.low = low
        self.high = high
        self.born = born
        self.until = None


def meets(part, low, high):
    return (part.high is None or low < part.high) and (high is None or part.low < high)


class Layout:
    def __init__(self, stream, created):
        self.stream = stream
        self.parts = [Part(f"{stream}-00000", [], b"", None, created)]
        self.places = {self.parts[0].token: 0}

    def named(self, tokens):
        for token in tokens:
            if token not in self.places:
                raise Refusal("NoPart", token)
        parts = [self.parts[self.places[token]] for token in tokens]
        for part in parts:
            if part.until is not None:
                raise Refusal("NotLive", part.token)
        if not parts or any(before.high is None or before.high != part.low for before, part in zip(parts, parts[1:])):
            raise Refusal("NotNeighbours")
        return parts

    def reshape(self, at, tokens, borders):
        named = self.named(tokens)
        low, high = named[0].low, named[-1].high
        if not all(low < it and (high is None or it < high) for it in borders):
            raise Refusal("BorderOutside")
        if any(before >= it for before, it in zip(borders, borders[1:])):
            raise Refusal("BordersNotRising")
        if any(at <= part.born for part in named):
            raise Refusal("StampNotAfter")
        if len(self.parts) + len(borders) + 1 > MOST_PARTS:
            raise Refusal("TooManyParts", MOST_PARTS)
        if max(len(named), len(borders) + 1) > WIDEST:
            raise Refusal("TooWide", WIDEST)
        for part in named:
            part.until = at
        for begin, end in zip([low, *borders], [*borders, high]):
            token = f"{self.stream}-{len(self.parts):05}"
            self.places[token] = len(self.parts)
            self.parts.append(Part(token, [it.token for it in named if meets(it, begin, end)], begin, end, at))
