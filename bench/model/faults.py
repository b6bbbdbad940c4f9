"""Random sources with faults: broken(seed) mostly of names and types, soup(seed) of bytes, tokens and syntax."""
import random
import re

from programs import well_typed
from scan import RESERVED
from wild import wild

TOKEN = re.compile(r"""\(\*.*?\*\)|\s+|[A-Za-z_][A-Za-z_0-9]*|[0-9]+|'[^'\n]*'|"[^"\n]*"|\.\.|:=|<=|>=|<>|.""", re.S)
NAMES = ["x", "y", "i", "b", "c", "e", "a", "r", "z", "n", "k", "ch", "red", "E", "S", "A", "R", "Q", "f", "g", "h", "zz", "INTEGER", "CHAR",
         "BOOLEAN", "TRUE", "FALSE", "p", "q", "l", "f1", "g1", "h1", "f2", "P"]
SYMBOLS = "; , . .. : := ( ) [ ] = # <> < <= > >= + - * |".split()
OTHERS = SYMBOLS + RESERVED + ["x", "1", "'a'"]
OPERATORS = ("+", "-", "*", "DIV", "MOD", "AND", "OR", "=", "<>", "#", "<", "<=", ">", ">=")
LITERALS = ["7", "'a'", "'ab'", "TRUE", "x", "red", "''", "(1)", "-1", "9223372036854775807", "0", "A", "a"]
STATEMENTS = ["; RETURN; ", "; RETURN 1; ", "; RETURN TRUE;", "; x; ", "; 1; ", "; f1; ", "; READ(e);", "; WRITE(e);", "; x := x;", "; NOT x;",
              ";;", "; (x);", "; (x;);", "; WRITE('ab');"]
PARTS = ["[1]", ".f", ".zz", "[1, 2]", "()", "(1)", "[TRUE]", ".g[1]", "[x]", "[red]"]
DECLARATIONS = ["; CONST k2 = x; ", "; CONST k2 = 1 DIV 0;", "; CONST k3 = CHR(256);", "; TYPE T2 = [3..1];",
                "; TYPE T3 = ARRAY INTEGER OF CHAR;", "; TYPE T4 = ['a'..3];", "; VAR x: INTEGER;", "; TYPE T5 = (red, pink);",
                "; CONST k4 = -9223372036854775807 - 2;", "; VAR v9: x;", "; TYPE T6 = RECORD a: CHAR; b, a: INTEGER END;",
                "; PROCEDURE x; END x;", "; PROCEDURE q9(a: INTEGER; VAR a: CHAR): A; END q9;", "; VAR w: zz;",
                "; TYPE T7 = ARRAY [0..2000000] OF CHAR;", "; CONST k5 = (1 = 1);", "; CONST k6 = 'ab';"]
OPENINGS = [("(", ")"), ("IF TRUE THEN ", " END"), ("x[", "]"), ("REPEAT ", " UNTIL TRUE"), ("EITHER ", " END"), ("COMMIT ", " END"),
            ("(", ")"), ("p(", ")"), ("FORALL TRUE DO ", " END"), ("NOT (", ")")]
BYTES = b"!$%&/?@~^`{}\\\"'(*).;:=<>#|[]+-09aZ_ \n\r\t\x00\xff\x80\x0b\x0c"
PIECES = [b"(*", b"*)", b"'", b'"', b"9223372036854775808", b"9223372036854775807", b"(*)", b"(* (* *)", b"00000000000000000000000000001", b"1.",
          b"1..", b"..", b"...", b":=:", b"<>=", b"\xc3\xa9"]


def is_word(token):
    return token[0].isalpha() or token[0] == "_"


class Mutation:
    """Faults put into the tokens of a source; blanks and comments are tokens here, and a token that is taken away is empty."""
    def __init__(self, random, tokens):
        self.random, self.tokens = random, tokens

    def places(self):
        return [at for at, token in enumerate(self.tokens) if token and not token.isspace() and not token.startswith("(*")]

    def make(self):
        self.at_tokens = self.places()
        self.at_names = [at for at in self.at_tokens if is_word(self.tokens[at]) and self.tokens[at] not in RESERVED]
        forms = [self.name] * 4 + [self.literal, self.operator, self.comma, self.parenthesis, self.mode, self.statement, self.part, self.index,
                                   self.sign, self.declaration, self.end, self.step, self.bound]
        for _ in range(20):
            form, at = forms[self.random.randrange(17)], self.random.choice(self.at_tokens)
            if form(at, self.tokens[at]):
                return

    def put(self, at, choices):
        self.tokens[at] = self.random.choice(choices)
        return True

    def next_to(self, at):
        index = self.at_tokens.index(at) + 1
        return self.at_tokens[index] if index < len(self.at_tokens) else at

    def name(self, _, __):
        at = self.random.choice(self.at_names)
        return self.put(at, NAMES + [self.tokens[one] for one in self.at_names][:200])

    def literal(self, at, token):
        return (token.isdigit() or token[0] in "'\"") and self.put(at, LITERALS)

    def operator(self, at, token):
        return token in OPERATORS and self.put(at, ["+", "-", "*", " DIV ", " MOD ", " AND ", " OR ", "=", "<", ">="])

    def comma(self, at, token):
        if token != ",":
            return False
        behind = self.next_to(at)
        if self.tokens[behind][:1].isalnum():
            self.tokens[at] = self.tokens[behind] = " "
        return True

    def parenthesis(self, at, token):
        return token == "(" and self.put(at, ["(x, ", "(1, ", "(", "((", "(TRUE; "])

    def mode(self, at, token):
        return token in ("VAR", "MIX") and self.put(at, ["", "VAR", "MIX"])

    def statement(self, at, token):
        return token == ";" and self.put(at, STATEMENTS)

    def part(self, _, __):
        self.tokens[self.random.choice(self.at_names)] += self.random.choice(PARTS)
        return True

    def index(self, at, token):
        if token != "]":
            return False
        opened = max((one for one in self.at_tokens if one < at and self.tokens[one] == "["), default=at + 1)
        self.tokens[opened:at + 1] = [""] * (at + 1 - opened)
        return True

    def sign(self, at, token):
        return token[0].isalnum() and token not in RESERVED and self.put(at, ["NOT " + token, "-" + token, "+" + token])

    def declaration(self, at, token):
        return token == ";" and self.put(at, DECLARATIONS)

    def end(self, at, token):
        if token != "END":
            return False
        behind = self.next_to(at)
        if self.tokens[behind] not in RESERVED and self.tokens[behind][:1].isalpha():
            self.put(behind, NAMES)
        return True

    def step(self, at, token):
        return token == "BY" and self.put(self.next_to(at), ["0", "x", "'a'", "TRUE", "1 - 1"])

    def bound(self, at, token):
        return token == ".." and self.put(at, ["..9", "..2 + 1 - ", ".. -1 * "])


def broken(seed):
    drawn = random.Random(seed * 7 + 1)
    if drawn.random() < .55:
        return wild(drawn)
    mutation = Mutation(drawn, TOKEN.findall(well_typed(seed)[0].decode()))
    for _ in range(drawn.choice([1, 1, 1, 2, 2])):
        mutation.make()
    return "".join(mutation.tokens).encode()


def soup(seed):
    drawn = random.Random(seed * 11 + 5)
    part = drawn.random()
    if part < .25:
        return tokens_only(drawn)
    source = well_typed(seed)[0] if drawn.random() < .6 else wild(drawn)
    if part < .4:
        return source[:drawn.randint(0, len(source))]
    if part < .55:
        return with_bytes(drawn, source)
    return with_tokens(drawn, source) if part < .85 else deep(drawn)


def tokens_only(drawn):
    count = drawn.randint(1, 30)
    tokens = [drawn.choice(SYMBOLS + RESERVED + ["a", "b", "x", "1", "2", "'a'", "\"xy\""] * 3) for _ in range(count)]
    before = drawn.choice(["MODULE A; BEGIN ", "MODULE A; ", "", "MODULE A; BEGIN a := ", "MODULE A; VAR a: "])
    return (before + " ".join(tokens)).encode()


def with_bytes(drawn, source):
    """Bytes put in or taken away."""
    source = bytearray(source)
    for _ in range(drawn.choice([1, 1, 2])):
        at, part = drawn.randint(0, len(source)), drawn.random()
        if part < .4:
            source[at:at] = bytes([drawn.choice(BYTES)])
        elif part < .7:
            del source[at:at + drawn.randint(1, 3)]
        else:
            source[at:at] = drawn.choice(PIECES)
    return bytes(source)


def with_tokens(drawn, source):
    """Tokens taken away, put in the place of others, doubled or exchanged."""
    tokens = TOKEN.findall(source.decode())
    places = Mutation(drawn, tokens).places()
    for _ in range(drawn.choice([1, 1, 1, 2])):
        at, part = drawn.choice(places), drawn.random()
        if part < .3:
            tokens[at] = ""
        elif part < .6:
            tokens[at] = f" {drawn.choice(OTHERS)} "
        elif part < .8:
            tokens[at] += " " + tokens[at]
        else:
            other = drawn.choice(places)
            tokens[at], tokens[other] = tokens[other] + " ", tokens[at] + " "
    return "".join(tokens).encode()


def deep(drawn):
    """About as many phrases inside each other as there may be."""
    count, alike, one = drawn.choice([97, 98, 99, 100, 101, 103]), drawn.random() < .4, drawn.choice(OPENINGS)
    opened = [one if alike else drawn.choice(OPENINGS) for _ in range(count)]
    inside = drawn.choice(["TRUE", "x", "", "1"])
    source = "MODULE A; BEGIN " + "".join(begin for begin, _ in opened) + inside + "".join(end for _, end in reversed(opened)) + " END A."
    if drawn.random() < .3:
        at = drawn.randrange(len(source))
        source = source[:at] + drawn.choice(["", ")", "(", ";", " END ", "]"]) + source[at + drawn.choice([0, 1]):]
    return source.encode()
