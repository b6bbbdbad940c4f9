"""Tokens of a source, and the first fault of its bytes."""

RESERVED = """AND ARRAY BEGIN BY CASE CHR COMMIT CONST DIV DO EITHER ELSE ELSIF END FOR FORALL IF KNOWN MIX MOD MODULE NOT OF OR ORD
ORELSE PROCEDURE READ RECORD REPEAT RETURN SOME THEN TO TYPE UNTIL VAR WHILE WRITE WRITELN""".split()
LETTERS = set(b"ABCDEFGHIJKLMNOPQRSTUVWXYZabcdefghijklmnopqrstuvwxyz_")
DIGITS = set(b"0123456789")
BLANKS = b" \t\r\n"
TWO = {b"..", b":=", b"<=", b">=", b"<>"}
ONE = set(b";,.:()[]=<>+-*|#")
LARGEST, SMALLEST = 2**63 - 1, -2**63


class SourceFault(Exception):
    def __init__(self, name, offset):
        self.name, self.offset = name, offset


class Token:
    """kind: a reserved word, `name`, `number`, `literal`, or the symbol itself (`<>` is `#`)."""
    __slots__ = ("kind", "text", "start")

    def __init__(self, kind, text, start):
        self.kind, self.text, self.start = kind, text, start


def scan(source):
    tokens, at = [], 0
    while at < len(source):
        byte, two = source[at], source[at:at + 2]
        if byte in BLANKS:
            at += 1
        elif two == b"(*":
            at = behind_comment(source, at)
        else:
            kind, end = token_at(source, at, byte, two)
            tokens.append(Token(kind, source[at:end], at))
            at = end
    return tokens


def behind_comment(source, start):
    """Comments nest."""
    depth, at = 1, start + 2
    while depth:
        if at >= len(source):
            raise SourceFault("OpenComment", start)
        two = source[at:at + 2]
        depth += (two == b"(*") - (two == b"*)")
        at += 2 if two in (b"(*", b"*)") else 1
    return at


def token_at(source, at, byte, two):
    """The kind of the token that begins here, and where it ends."""
    if byte in LETTERS:
        end = behind(source, at, LETTERS | DIGITS)
        word = source[at:end].decode()
        return (word if word in RESERVED else "name"), end
    if byte in DIGITS:
        end = behind(source, at, DIGITS)
        if int(source[at:end].lstrip(b"0")[:40] or b"0") > LARGEST:
            raise SourceFault("NumberTooLarge", at)
        return "number", end
    if byte in b"\"'":
        end = at + 1
        while end < len(source) and source[end] != byte and source[end] not in b"\r\n":
            end += 1
        if end >= len(source) or source[end] != byte:
            raise SourceFault("OpenString", at)
        return "literal", end + 1
    if two in TWO:
        return "#" if two == b"<>" else two.decode(), at + 2
    if byte in ONE:
        return chr(byte), at + 1
    raise SourceFault("BadByte", at)


def behind(source, at, allowed):
    while at < len(source) and source[at] in allowed:
        at += 1
    return at


def place(source, offset):
    """Line and column, from 1; only a line feed ends a line."""
    return source.count(b"\n", 0, offset) + 1, offset - source.rfind(b"\n", 0, offset)
