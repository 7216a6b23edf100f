"""Terms: what a word or a byte of the machine is computed from, for the auditor.

A number is itself; all else is a tuple. Each function below makes the one term that stands for all of the same value that it knows: sums are flat
and in order, a byte of an extended byte is that byte. So two equal terms have equal values, whatever the values of what they begin from.
"""
MASK = 0xFFFFFFFF


def signed(number, bits=32):
    return number - (1 << bits) if number >> (bits - 1) & 1 else number


def in_order(*terms):
    return tuple(sorted(terms, key=repr))


def summands(term):
    """The constant and the other summands of a term."""
    if isinstance(term, int):
        return term, ()
    return (term[1], term[2:]) if term[0] == "+" else (0, (term,))


def plus(*terms):
    constant, others = 0, ()
    for term in terms:
        number, more = summands(term)
        constant, others = constant + number & MASK, others + more
    if not others:
        return constant
    return others[0] if constant == 0 and len(others) == 1 else ("+", constant, *in_order(*others))


def minus(first, second):
    (a, terms), (b, others) = summands(first), summands(second)
    if terms == others:
        return a - b & MASK
    return plus(first, -second & MASK) if isinstance(second, int) else ("-", first, second)


def computed(name, first, second):
    """The value of ADD, SUB, AND, OR, XOR or IMUL on two words."""
    if name in ("add", "sub"):
        return plus(first, second) if name == "add" else minus(first, second)
    if isinstance(first, int) and isinstance(second, int):
        return {"and": first & second, "or": first | second, "xor": first ^ second, "mul": first * second & MASK}[name]
    for number, other in ((first, second), (second, first)):
        if number == {"mul": 1, "and": MASK, "or": 0, "xor": 0}[name]:
            return other
        if number == {"or": MASK, "mul": 0, "and": 0}.get(name, ""):
            return number
    return (name, *in_order(first, second))


def negated(term):
    return -term & MASK if isinstance(term, int) else ("neg", term)


def complement(term):
    return ~term & MASK if isinstance(term, int) else ("not", term)


# ---- bytes of words


def byte(word, k):
    """The lowest byte of a word, or for k = 1 its second."""
    if isinstance(word, int):
        return word >> 8 * k & 0xFF
    if word[0] == "joined":
        return word[1 + k]
    if word[0] == "zero_extended":
        return word[1] if k == 0 else 0
    if word[0] == "sign_extended" and k == 0:
        return word[1]
    return ("byte", k, word)


def zero_extended(low):
    return low if isinstance(low, int) else ("zero_extended", low)


def sign_extended(low):
    if isinstance(low, int):
        return signed(low, 8) & MASK
    # A flag is 0 or 1.
    return ("zero_extended" if low[0] == "flag" else "sign_extended", low)


def sign_extended_half(word):
    return signed(word & 0xFFFF, 16) & MASK if isinstance(word, int) else ("half_extended", word)


def half(word):
    return word & 0xFFFF if isinstance(word, int) else ("half", word)


def with_byte(word, k, value):
    """The word with another lowest or second byte."""
    rest = word[3] if isinstance(word, tuple) and word[0] == "joined" else word
    low, high = (value, byte(word, 1)) if k == 0 else (byte(word, 0), value)
    if (low, high) == (byte(rest, 0), byte(rest, 1)):
        return rest
    is_short = rest < 0x10000 if isinstance(rest, int) else rest[0] == "zero_extended"
    return zero_extended(low) if high == 0 and is_short else ("joined", low, high, rest)


# ---- comparisons

# The conditions of jumps by their numbers (Intel manual, volume 1, appendix B). Odd ones are the opposites of the even ones before them.
CONDITIONS = {2: "below", 3: "not_below", 4: "eq", 5: "ne", 6: "not_above", 7: "above", 12: "lt", 13: "ge", 14: "le", 15: "gt"}
NUMBERS = {name: number for number, name in CONDITIONS.items()}
SWAPPED = {"gt": "lt", "le": "ge", "above": "below", "not_above": "not_below"}


def condition(name, first, second):
    """Whether two words compare so: True or False where that is known, and else a term."""
    if minus(first, second) == 0:
        return name in ("eq", "not_below", "not_above", "ge", "le")
    if isinstance(first, int) and isinstance(second, int):
        a, b = (signed(first), signed(second)) if name in ("lt", "ge", "le", "gt") else (first, second)
        return {"eq": a == b, "ne": a != b, "below": a < b, "lt": a < b, "above": a > b, "gt": a > b}.get(
            name, a >= b if name in ("not_below", "ge") else a <= b)
    if isinstance(minus(first, second), int) and name in ("eq", "ne"):
        return name == "ne"
    if name in SWAPPED:
        return (SWAPPED[name], second, first)
    return (name, *in_order(first, second)) if name in ("eq", "ne") else (name, first, second)


def opposite(name):
    return CONDITIONS[NUMBERS[name] ^ 1]


def flag(holds):
    return int(holds) if isinstance(holds, bool) else ("flag", holds)
