"""One sentence for each fault that `pcc` answers: the rule that the text breaks, and what to write in its place."""
import difflib
import re

TYPE_WORDS = {"void", "char", "short", "int", "signed", "const", "static", "extern", "auto", "register"}
KNOWN = ("putchar", "getchar", "exit")
UNSUPPORTED = {
    "unsigned": "unsigned types are left out: write `int`; its sums wrap at 32 bits, and `&` with a mask keeps the low bits",
    "struct": "structures are left out: write a variable or an array for each member",
    "union": "unions are left out: write a variable for each member",
    "enum": "enumerations are left out: write `#define` for each name, or the numbers themselves",
    "typedef": "`typedef` is left out: write the type itself, or `#define`",
    "float": "floating point is left out: count in `int`, as hundredths or the like",
    "double": "floating point is left out: count in `int`, as hundredths or the like",
    "long": "types of more than 32 bits are left out: write `int`",
    "goto": "`goto` and labels are left out: write a loop with `break` and `continue`, or a function with `return`",
    "sizeof": "`sizeof` is left out: write the number, 1 for `char`, 2 for `short`, 4 for `int`, times the array's elements",
    "volatile": "`volatile` is left out: leave the word out",
    "restrict": "`restrict` is left out: leave the word out",
    "inline": "`inline` is left out: leave the word out",
    "_Bool": "`_Bool` is left out: write `int`, with 0 and 1",
    "_Complex": "floating point is left out: count in `int`",
    "_Imaginary": "floating point is left out: count in `int`",
}
HEADERS = {
    "EOF": "stdio.h", "NULL": "stdio.h", "EXIT_SUCCESS": "stdlib.h", "EXIT_FAILURE": "stdlib.h", "CHAR_BIT": "limits.h",
    "CHAR_MIN": "limits.h", "CHAR_MAX": "limits.h", "SCHAR_MIN": "limits.h", "SCHAR_MAX": "limits.h", "SHRT_MIN": "limits.h",
    "SHRT_MAX": "limits.h", "INT_MIN": "limits.h", "INT_MAX": "limits.h",
}
# The names of C's library and types that programs often use, and what stands for them here.
LIBRARY = set(
    "printf fprintf sprintf snprintf scanf puts fputs fgets gets getc putc fgetc fputc fopen fclose fread fwrite malloc calloc realloc"
    " free abs atoi strlen strcpy strcmp strcat strchr memcpy memset memcmp rand srand qsort assert abort time isdigit isalpha isspace"
    " toupper tolower".split()
)
TYPES = set("bool size_t ssize_t int8_t int16_t int32_t int64_t uint8_t uint16_t uint32_t uint64_t FILE string byte uint".split())


class Place:
    """A place in a text of C: the text's tokens, and the number of the one that stands there, or of the end of the file."""

    def __init__(self, tokens, line, column):
        self.tokens = tokens
        self.at = next((i for i, it in enumerate(tokens) if (it.line, it.column) >= (line, column)), len(tokens))
        self.is_end = self.at == len(tokens)

    def text(self, by=0):
        """The token that stands so many tokens behind the place (before it, where negative), or "" where there is none."""
        return self.tokens[self.at + by].text if 0 <= self.at + by < len(self.tokens) else ""

    def kind(self, by=0):
        return self.tokens[self.at + by].kind if 0 <= self.at + by < len(self.tokens) else ""

    def is_behind_line(self):
        """Whether the token before the place stands on an earlier line."""
        return 0 < self.at and (self.is_end or self.tokens[self.at - 1].line < self.tokens[self.at].line)

    def before(self):
        return [it.text for it in self.tokens[: self.at]]

    def open_brackets(self):
        """The brackets that are open before the place, each with the number of its token."""
        found = []
        for i, it in enumerate(self.tokens[: self.at]):
            if it.text in ("(", "[", "{"):
                found.append((it.text, i))
            elif it.text in (")", "]", "}") and found:
                found.pop()
        return found

    def block_word(self):
        """The word before the innermost open block's `{`, as `switch`, or "" where it is a function's or no block is open."""
        for bracket, i in reversed(self.open_brackets()):
            if bracket == "{":
                return self._word_before(i)
        return ""

    def _word_before(self, i):
        if i == 0 or self.tokens[i - 1].text != ")":
            return self.tokens[i - 1].text if 0 < i else ""
        depth = 0
        for j in range(i - 1, -1, -1):
            depth += {")": 1, "(": -1}.get(self.tokens[j].text, 0)
            if depth == 0:
                return self.tokens[j - 1].text if 0 < j else ""
        return ""

    def names(self):
        return {it.text for it in self.tokens if it.kind == "word"} | set(KNOWN)


def bad_byte(place):
    here = place.text()
    if here == "#":
        return "a `#` line is for a preprocessor, and none was run: install one of gcc, cpp, clang or tcc, or write the declarations themselves"
    if here == "L":
        return "wide characters are left out: leave the `L` out"
    if here == "\\" and re.match(r"[uU][0-9a-fA-F]{4}", place.text(1)):
        return "names have the letters a to z, digits and `_`: others stand only in comments, strings and characters"
    if here == "\\":
        return "a `\\` at the end of a line is for a preprocessor: put the line together"
    if here[:1] and ord(here[0]) > 127:
        return "names have the letters a to z, digits and `_`: other letters and signs stand only in comments, strings and characters"
    return f"no token begins with `{here[:1]}`" if here else "no token begins with this byte"


def bad_number(place):
    here = place.text()
    lower = here.lower()
    if re.fullmatch(r"(0x[0-9a-f]*\.[0-9a-f]*|[0-9]*\.[0-9]*|0x[0-9a-f]+(?=p))([ep][+-]?[0-9]+)?[fl]?", lower) or (
        not lower.startswith("0x") and re.fullmatch(r"[0-9]+e[+-]?[0-9]+[fl]?", lower)
    ):
        return f"`{here}` has a fraction or an exponent: floating point is left out; count in `int`, as hundredths or the like"
    if re.fullmatch(r"(0x[0-9a-f]+|[0-9]+)(u|l|ul|lu|ll|ull|llu)", lower):
        return f"a constant has no suffix, as all have type int: write `{re.sub(r'[ulUL]+$', '', here)}`"
    if re.fullmatch(r"0b[01]+", lower):
        return f"a constant is decimal, octal or hexadecimal: write `{hex(int(lower, 2))}`"
    if re.fullmatch(r"0[0-9]+", lower) and re.search("[89]", lower):
        return f"a constant that begins with 0 is octal, and has no digit 8 or 9: write `{here.lstrip('0') or '0'}`"
    if re.fullmatch(r"0x[0-9a-f]+|0[0-7]*|[1-9][0-9]*", lower):
        value = int(lower, 16 if lower.startswith("0x") else 8 if lower.startswith("0") else 10)
        if value == 2**31:
            return "the largest constant is 2147483647: write the least number as `(-2147483647 - 1)`"
        if value < 2**32:
            signed = value - 2**32
            return f"the largest constant is 2147483647: the same 32 bits are `{signed if signed != -(2**31) else '(-2147483647 - 1)'}`"
        return "the largest constant is 2147483647: a number has 32 bits"
    return f"`{here}` is no integer constant: it goes on with something that isn't a digit"


def unclosed(place):
    here = place.text()
    if here.startswith('"'):
        return 'the string isn\'t closed on its line: a `"` is missing; a newline in it is written `\\n`'
    if here.startswith("'"):
        return "the character isn't closed on its line: a `'` is missing"
    return "the comment isn't closed: a `*/` is missing"


def bad_escape(place):
    here = place.text()
    inside = here[1:-1]
    if here.startswith("'") and not inside:
        return "a character constant holds one character: an empty one is none; zero is `'\\0'`"
    if here.startswith("'") and "\\" not in inside and len(inside.encode()) > 1:
        return f"a character constant holds one character: write a string, `\"{inside}\"`, or one constant for each"
    return "an escape is one of `\\' \\\" \\? \\\\ \\a \\b \\f \\n \\r \\t \\v`, up to three octal digits, or `\\x` and hexadecimal digits, at most 255"


def syntax_at_end(place):
    brackets = [it for it, _ in place.open_brackets()]
    if "{" in brackets:
        missing = brackets.count("{")
        return f"the file ends inside a block: {'a `}` is' if missing == 1 else f'{missing} `}}` are'} missing"
    return "the file ends inside a declaration: a `;` or the rest of it is missing"


def is_in_main(place):
    """Whether the place is in the parameters of a function named main."""
    brackets = place.open_brackets()
    return bool(brackets) and brackets[-1][0] == "(" and 0 < brackets[-1][1] and place.tokens[brackets[-1][1] - 1].text == "main"


def syntax(place):
    if place.is_end:
        return syntax_at_end(place)
    here, before = place.text(), place.text(-1)
    if is_in_main(place):
        return "`main` takes no arguments: write `int main(void)`"
    if here == "*" and before == "*":
        return "pointers to pointers are left out: write an index into an array in place of the inner one"
    if here == "[" and before == "]":
        return "arrays have one dimension: write `a[rows * columns]`, and the element as `a[i * columns + j]`"
    if here == "(" and (before == ")" or before in TYPE_WORDS) or here == "*" and before == "(" and place.text(-2) in TYPE_WORDS:
        return "pointers to functions are left out, and so are parentheses in declarations: write a `switch` that calls the function"
    if here == "...":
        return "functions with any number of arguments are left out: write one parameter for each"
    if here == "else":
        return "no `if` is free here: it has an `else` already, or a `;` or a missing `{ }` has ended it before"
    if here in ("case", "default"):
        return "a `case` or `default` stands directly in the block of its `switch`, and not in a statement or block inside"
    if here in TYPE_WORDS and place.block_word() == "switch":
        return "no declaration stands directly in a switch's block: write it before the `switch`, or in a block `{ }` of its own"
    if here in TYPE_WORDS and before in (":", ")", "else", "do"):
        return "no declaration stands here, where one statement does: write a block `{ }` round it"
    if here == ":" and place.kind(-1) == "word":
        return "labels are left out, as `goto` is: write a loop with `break` and `continue`, or a function"
    if here == "." or here == "->":
        return "structures are left out: write a variable or an array for each member"
    if here == "{" and before == ")":
        return "old-style definitions and compound literals are left out"
    if before in TYPES or here in TYPES:
        name = before if before in TYPES else here
        return f"`{name}` is no type: the types are `char`, `short` and `int`"
    if place.kind() == "word" and place.kind(-1) == "word" and here not in TYPE_WORDS and before not in TYPE_WORDS | {"return", "else", "do"}:
        return f"`{before}` is no type and no word of a statement" + guess(before, WORDS)
    if place.kind(-1) == "word" and before not in TYPE_WORDS and place.text(-2) in ("", ";", "{", "}") and place.kind() in ("number", "text"):
        return f"`{before}` is no word of a statement" + guess(before, WORDS)
    return missing_mark(place)


WORDS = sorted(TYPE_WORDS | set("if else while do for switch case default break continue return".split()))


def missing_mark(place):
    here, before = place.text(), place.text(-1)
    inner = place.open_brackets()[-1:] or [("", 0)]
    if inner[0][0] in "([" and inner[0][0] and here in (";", "{", "}"):
        return f"a `{')' if inner[0][0] == '(' else ']'}` is missing before this `{here}`"
    if place.is_behind_line() and before not in ("{", "}", ";"):
        return f"a `;` is missing behind `{before}`, on the line before"
    if here == "}" and inner[0][0] != "{":
        return "this `}` closes no block"
    if here in (")", "]"):
        return f"an expression is missing before this `{here}`, or a bracket is open or closed too often"
    if before in (")", "]") or place.kind(-1) in ("word", "number", "text", "character"):
        return f"`{before}` can't be followed by `{here}`: an operator, a `,` or a `;` is missing"
    return f"`{before}` can't be followed by `{here}`" if before else f"no declaration begins with `{here}`"


def guess(name, others):
    near = difflib.get_close_matches(name, [it for it in others if it != name], 1, 0.7)
    return f"; did you mean `{near[0]}`?" if near else ""


def undeclared(place):
    here = place.text()
    if here in HEADERS:
        return f"`{here}` isn't declared: write `#include <{HEADERS[here]}>` at the head"
    if here in ("true", "false"):
        return f"`{here}` isn't declared: write {'1' if here == 'true' else '0'}"
    if here in LIBRARY:
        return f"`{here}` isn't there: of C's library there are `putchar`, `getchar` and `exit` alone; write it as a function of your own"
    others = [it for it in place.names() if it not in TYPE_WORDS and place.before().count(it) > 0]
    return f"`{here}` isn't declared before it is used" + guess(here, others)


def arguments_of(place):
    """How many arguments the call at the place has, and how many parameters its function was declared with, or None."""

    def count(start):
        depth, commas, any_token = 0, 0, False
        for it in place.tokens[start:]:
            if it.text in ")]}" and it.text:
                depth -= 1
                if depth == 0:
                    return commas + 1 if any_token else 0
            any_token = any_token or 0 < depth
            commas += depth == 1 and it.text == ","
            depth += it.text in ("(", "[", "{")
        return None

    here = place.text()
    declared = next((i for i, it in enumerate(place.tokens[1 : place.at], 1) if it.text == here and place.tokens[i - 1].text in TYPE_WORDS), None)
    if declared is None:
        return count(place.at + 1), {"putchar": 1, "exit": 1, "getchar": 0}.get(here)
    parameters = count(declared + 1)
    is_void = [it.text for it in place.tokens[declared + 1 : declared + 4]] == ["(", "void", ")"]
    return count(place.at + 1), 0 if is_void else parameters


def argument_count(place):
    given, wanted = arguments_of(place)
    if given is None or wanted is None or given == wanted:
        return f"`{place.text()}` is called with another number of arguments than it has parameters"
    return f"`{place.text()}` has {wanted} parameter{'' if wanted == 1 else 's'}, and is called with {given} argument{'' if given == 1 else 's'}"


def is_at_file_scope(place):
    return not any(it == "{" for it, _ in place.open_brackets())


def pointer_use(place):
    here, before, after = place.text(), place.text(-1), place.text(1)
    if is_in_main(place):
        return "`main` takes no arguments: write `int main(void)`"
    if here == "&":
        return "`&` takes an element, as `&a[i]`: make the variable an array of one element, whose name is a pointer to it"
    if place.kind() == "word" and before in ("*", "const") and "*" in (before, place.text(-2)):
        return pointer_declared(place, after)
    if here == "return":
        return "the value is a pointer, and a function's result is a number: return an index, or the element itself"
    if before == "=":
        return "the types don't fit: a pointer takes a pointer to the very same type, or 0; a number takes a number"
    if before in ("(", ","):
        return "the argument doesn't fit: a pointer parameter takes a pointer to the very same type, or 0; a number takes a number"
    if here == "=":
        return "the types don't fit: a pointer takes a pointer to the very same type, or 0; a number takes a number"
    if here == "(":
        return "this cast isn't there: a pointer becomes a pointer to the very same type alone, and a number never becomes one, but for 0"
    if here in ("++", "--"):
        return "`++` and `--` step a pointer that is a variable, and none that is an array"
    return f"`{here}` isn't there for a pointer: a number is added or subtracted, and two pointers to one type are subtracted or compared"


def pointer_declared(place, after):
    name = place.text()
    if after == "[":
        return "arrays of pointers are left out: write one array with all elements, and an array of indices into it"
    if after == "(":
        return "a function's result is no pointer: return an index into an array, or pass the array as an argument"
    words = place.before()[max(place.before()[::-1].index(it) for it in ("*",)) * -1 - 8 :]
    if "void" in words[-4:]:
        return "pointers to `void` are left out: write a pointer to the elements' type"
    if is_at_file_scope(place) or "static" in words or "extern" in words:
        return f"a pointer of static storage is left out: write an array, as `{name}[]`, or a pointer inside a function"
    return "this pointer isn't allowed here"


def type_fault(place):
    here, before, after = place.text(), place.text(-1), place.text(1)
    if here == "return":
        if after == ";":
            return "this function has a result: write the value behind `return`"
        return "a `void` function has no result: write `return;`"
    if here == "main" or is_in_main(place):
        return "`main` is `int main(void)`, and isn't `static`"
    if here in KNOWN:
        return f"`{here}` is there already, as C declares it, and can't be defined or declared otherwise"
    if here == "(" and place.kind(-1) != "word":
        return "this cast isn't there: a number becomes a number, anything becomes `void`"
    if place.kind() == "word" and before in TYPE_WORDS and after in ("(", ";", ",", "=", "["):
        if after == "(" and not is_at_file_scope(place):
            return "no function is declared in a function's body: write the declaration before the function"
        return "these types don't go together: an object isn't `void`, and a definition's parameters have names"
    if here in TYPE_WORDS:
        return "these words name no type, or stand where they don't belong: the types are `void`, `char`, `short` and `int`, with `signed`, and one storage word"
    if place.kind() == "word" and after == "(":
        return f"`{here}` is no function"
    if place.kind() == "word":
        return f"`{here}` is a function: call it, as `{here}()`"
    if here in ("if", "while", "for", "switch"):
        return f"the condition of `{here}` is a number{'' if here == 'switch' else ' or a pointer'}, and this has no value"
    if here == "[" or here == "*":
        return f"`{here}` takes a pointer or an array, and this is a number"
    return f"`{here}` takes numbers, and an operand here has no value (`void`) or another type"


def no_main(place):
    found = [i for i, it in enumerate(place.tokens) if it.text == "main" and place.tokens[i + 1 : i + 2] and place.tokens[i + 1].text == "("]
    if not found:
        return "no function `main` is defined: a program begins in `int main(void)`"
    return "`main` isn't `int main(void)`: write it so, and return the exit status"


RULES = {
    1: bad_byte,
    2: bad_number,
    3: unclosed,
    4: bad_escape,
    5: syntax,
    6: lambda place: UNSUPPORTED.get(place.text(), f"`{place.text()}` is left out"),
    7: lambda place: "the nesting is too deep: at most 256 nodes stand one in another; write it in parts",
    8: lambda place: f"`{place.text()}` is declared already in this scope, or with another type or linkage: give it another name",
    9: undeclared,
    10: type_fault,
    11: lambda place: f"the left of `{place.text()}` is no variable or element that can be assigned",
    12: argument_count,
    13: lambda place: "an array's size is a constant of at least 1; it may be left out where an initialiser gives it, and for a parameter",
    14: lambda place: "the initialiser doesn't fit: a list has at most as many values as the array has elements, a string fits in a `char` array,"
    " and a static object's values are constants",
    15: lambda place: f"`{place.text()}` stands in no loop" + (" and no switch" if place.text() == "break" else ""),
    16: lambda place: "a label is a constant, and stands once in its switch, as `default` does",
    17: pointer_use,
    18: no_main,
    19: lambda place: f"`{place.text()}` is declared and used, but no file that was given defines it",
}


def sentence(number, tokens, line, column):
    """The sentence for a fault of this number at a place in a file's tokens (tokens of `c_text`)."""
    return RULES[number](Place(tokens, line, column))
