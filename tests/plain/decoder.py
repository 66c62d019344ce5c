"""Decoding with wrong shares: Gao's decoder over the field of p elements.

A polynomial is the list of its coefficients, the lowest first; the highest isn't 0.
"""

from shared import P, agreeing, value_at


def trimmed(polynomial):
    """The same polynomial without zeros at its upper end."""
    while polynomial and polynomial[-1] == 0:
        polynomial.pop()
    return polynomial


def times_linear(polynomial, root):
    """The polynomial times (x - root)."""
    raised = [0, *polynomial]
    for i, coefficient in enumerate(polynomial):
        raised[i] = (raised[i] - root * coefficient) % P
    return raised


def over_linear(polynomial, root):
    """The quotient of a polynomial by (x - root), which divides it."""
    quotient = []
    carry = 0
    for coefficient in reversed(polynomial[1:]):
        carry = (coefficient + root * carry) % P
        quotient.append(carry)
    return quotient[::-1]


def divide(dividend, divisor):
    """Quotient and remainder."""
    remainder = list(dividend)
    quotient = [0] * max(len(dividend) - len(divisor) + 1, 0)
    inverse = pow(divisor[-1], -1, P)
    for i in reversed(range(len(quotient))):
        quotient[i] = remainder[i + len(divisor) - 1] * inverse % P
        for j, coefficient in enumerate(divisor):
            remainder[i + j] = (remainder[i + j] - quotient[i] * coefficient) % P
    return quotient, trimmed(remainder)


def minus_product(start, left, right):
    """start - left * right."""
    result = start + [0] * max(len(left) + len(right) - 1 - len(start), 0)
    for i, a in enumerate(left):
        for j, b in enumerate(right):
            result[i + j] = (result[i + j] - a * b) % P
    return trimmed(result)


class Decoder:
    """Decodes at given points x, which differ, polynomials of degree below k."""

    def __init__(self, xs, k):
        self.xs = xs
        self.k = k
        self.product = [1]
        for x in xs:
            self.product = times_linear(self.product, x)
        self.parts = []
        for x in xs:
            part = over_linear(self.product, x)
            self.parts.append((part, pow(value_at(part, x), -1, P)))

    def interpolate(self, ys):
        """The polynomial of degree below n through all points."""
        result = [0] * len(self.xs)
        for y, (part, inverse) in zip(ys, self.parts):
            factor = y * inverse % P
            for i, coefficient in enumerate(part):
                result[i] = (result[i] + factor * coefficient) % P
        return trimmed(result)

    def decode(self, ys):
        """The k coefficients of the polynomial with 2m >= n + k points on it, or None.

        The extended algorithm of Euclid runs on the product of all (x - point) and the
        polynomial through all points until the remainder's degree is below (n + k) / 2.
        The polynomial is then the remainder over the factor of the second, if there is one.
        """
        above, remainder = self.product, self.interpolate(ys)
        factor_above, factor = [], [1]
        while 2 * (len(remainder) - 1) >= len(self.xs) + self.k:
            quotient, rest = divide(above, remainder)
            above, remainder = remainder, rest
            factor_above, factor = factor, minus_product(factor_above, quotient, factor)
        polynomial, rest = divide(remainder, factor)
        if rest or len(trimmed(polynomial)) > self.k:
            return None
        polynomial += [0] * (self.k - len(polynomial))
        agree = sum(value_at(polynomial, x) == y for x, y in zip(self.xs, ys))
        return polynomial if 2 * agree >= len(self.xs) + self.k else None


def decode_points(points, k):
    """The three polynomials on all of which m points lie with 2m >= n + k, or None.

    Such polynomials have at least these m points each, so each is found alone.
    """
    decoder = Decoder([x for x, _ in points], k)
    polynomials = []
    for j in range(3):
        polynomial = decoder.decode([shares[j] for _, shares in points])
        if polynomial is None:
            return None
        polynomials.append(polynomial)
    return polynomials if 2 * agreeing(polynomials, points) >= len(points) + k else None
