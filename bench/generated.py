"""Texts of generated programs, as `pcc gen` has them, with any number of functions.

`pcc gen N` puts out the program of the number N with 40 functions (crates/pcc_gen/specs/Generated.antt). With 230 it
has about 60,000 tokens, the size that `bench/compile.sh` works with.
"""

OPERATORS = ["+", "-", "*", "&", "|", "^", "<<", ">>"]
STATEMENTS = 30
HEAD = "int t[64];\n"
MAIN = """int main(void) {
  int s = 0;
  int i;
  for (i = 0; i < 10; i++) {
%s  }
  for (i = 0; i < 64; i++) s = s * 31 + t[i];
  for (i = 28; i >= 0; i -= 4) putchar("0123456789abcdef"[(s >> i) & 15]);
  putchar('\\n');
  return 0;
}
"""


class Draws:
    """Numbers that follow one another from a first one."""

    def __init__(self, number):
        self.state = number

    def below(self, bound):
        """The next number, which is less than the bound."""
        self.state = (1103515245 * self.state + 12345) % 2**32
        return self.state // 65536 % 32768 % bound

    def variable(self):
        return "abcde"[self.below(5)]


def statement(draws):
    """A line that gives one of a function's variables a value of two of them."""
    kind, target, left = draws.below(10), draws.variable(), draws.variable()
    if kind < 8:
        operation = f"{OPERATORS[kind]} {draws.variable()}"
    else:
        operation = "/ 7" if kind == 8 else "% 9"
    return f"  {target} = {left} {operation};\n"


def function(index, draws):
    head = f"int f{index}(int a, int b) {{\n  char c = a;\n  short d = b;\n  int e = {draws.below(1000)};\n"
    body = "".join(statement(draws) for _ in range(STATEMENTS))
    turns = 1 + draws.below(8)
    loop = f"  for (e = 0; e < {turns}; e++) t[(a + e) & 63] += b ^ d;\n"
    return f"{head}{body}{loop}  return a + b + c + d + e;\n}}\n"


def program(count, number):
    """The text of the program of that number with so many functions."""
    draws = Draws(number)
    functions = "".join(function(index, draws) for index in range(count))
    calls = "".join(f"    s = s * 31 + f{index}(i, s);\n" for index in range(count))
    return HEAD + functions + MAIN % calls
