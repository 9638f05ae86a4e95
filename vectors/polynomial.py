"""Polynomial constraints, computed apart from the program that is tested against them.

A text has the numbers of variables and of constraints; then each constraint: its number of terms; then each term: its coefficient, its number
of factors, and these. Sums are those of the polynomial form of QuickSilver (Yang, Sarkar, Weng and Wang, ACM CCS 2021), as
`docs/PROTOCOL.md` has them; both sides of the equation are computed, from pairs and from keys.
"""
from typing import List, NamedTuple, Sequence, Tuple, Union

from common import FILE_ID, P, elements, frame, sha256


class Term(NamedTuple):
    coefficient: int
    factors: List[int]


class Fault(NamedTuple):
    name: str
    token: int


class Constraints(NamedTuple):
    variables: int
    polynomials: List[List[Term]]

    def degree(self) -> int:
        """The greatest number of factors, and at least 2: a term counts whatever its coefficient."""
        return max([2] + [len(term.factors) for terms in self.polynomials for term in terms])

    def values(self, x: Sequence[int]) -> List[int]:
        """What each polynomial is at these values."""
        return [sum(term_value(term, x) for term in terms) % P for terms in self.polynomials]


def term_value(term: Term, x: Sequence[int]) -> int:
    value = term.coefficient
    for v in term.factors:
        value = value * x[v] % P
    return value


NUMBERS = {"ShortText": 1, "BadNumber": 2, "TooLarge": 3, "VarRange": 4, "ExtraText": 5}


class Reader:
    """The tokens of a text, each judged where it stands."""

    def __init__(self, text: bytes) -> None:
        self.tokens, self.place = text.split(), 0

    def number(self, most: int, name: str = "TooLarge") -> int:
        if self.place == len(self.tokens):
            raise ValueError("ShortText", self.place)
        token = self.tokens[self.place]
        if not token.isdigit():
            raise ValueError("BadNumber", self.place)
        if int(token) > most:
            raise ValueError(name, self.place)
        self.place += 1
        return int(token)

    def term(self, variables: int) -> Term:
        coefficient, count = self.number(P - 1), self.number(8)
        return Term(coefficient, [self.number(variables - 1, "VarRange") for _ in range(count)])

    def constraints(self) -> Constraints:
        variables, count = self.number(65536), self.number(65536)
        polynomials = [[self.term(variables) for _ in range(self.number(4096))] for _ in range(count)]
        if self.place < len(self.tokens):
            raise ValueError("ExtraText", self.place)
        return Constraints(variables, polynomials)


def read(text: bytes) -> Union[Constraints, Fault]:
    try:
        return Reader(text).constraints()
    except ValueError as fault:
        return Fault(*fault.args)


def key_polynomial(degree: int, pairs: Sequence[Tuple[int, int]], terms: Sequence[Term]) -> List[int]:
    """What keys `m + x key` make of a constraint, lifted to the degree: its coefficients by powers of the key."""
    total = [0] * (degree + 1)
    for coefficient, factors in terms:
        poly = [0] * (degree - len(factors)) + [coefficient]
        for v in factors:
            x, m = pairs[v]
            poly = [(a * m + b * x) % P for a, b in zip(poly + [0], [0] + poly)]
        total = [(a + b) % P for a, b in zip(total, poly)]
    return total


def sums(constraints: Constraints, pairs: Sequence[Tuple[int, int]], challenge: int, masks: Sequence[Tuple[int, int]]) -> List[int]:
    """What an honest prover answers."""
    degree = constraints.degree()
    total = [0] * (degree + 1)
    for i, terms in enumerate(constraints.polynomials, 1):
        total = [(a + pow(challenge, i, P) * b) % P for a, b in zip(total, key_polynomial(degree, pairs, terms))]
    for l, (x, m) in enumerate(masks):
        total[l] += m
        total[l + 1] += x
    return [a % P for a in total[:degree]]


def left(constraints: Constraints, keys: Sequence[int], key: int, challenge: int, mask_keys: Sequence[int]) -> int:
    """The left side of the equation, from keys."""
    degree, total = constraints.degree(), 0
    for i, terms in enumerate(constraints.polynomials, 1):
        total += pow(challenge, i, P) * sum(term_value(term, keys) * pow(key, degree - len(term.factors), P) for term in terms)
    return (total + sum(k * pow(key, l, P) for l, k in enumerate(mask_keys))) % P


def hello(text: bytes) -> bytes:
    """The hello about the constraints of a text."""
    return frame(1, FILE_ID + sha256(text) + sha256(b"") + bytes([3]))
