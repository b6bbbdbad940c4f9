"""Random phrases of the grammar over names of all sorts: most of them break some rule on names and types."""

NAMES = ["x", "y", "s1", "b", "c", "e", "a", "m", "r", "rr", "k", "ch", "red", "E", "S", "A", "R", "zz", "TRUE", "p", "pv", "pm", "ps", "f", "fb",
         "l", "late", "bl", "INTEGER", "bb", "vp", "mp"]
DESIGNATORS = ["x", "y", "b", "c", "e", "s1", "a[1]", "m[red, 0]", "r.f", "r.g[2]", "rr[1].h", "bb", "k", "ch", "a", "r"]
CALLS = ["p", "pv(%s)", "pm(%s)", "ps(%s)", "f(%s)", "fb(%s)", "p(%s)", "late(%s)", "bl(%s)", "vp(%s, %s)", "mp(%s, %s)", "ps()", "f()", "x(%s)",
         "a(%s)", "fb()", "p()", "pv(%s, %s)", "bl()", "late"]
OPERANDS = ["1", "2", "0", "'a'", "'ab'", "x", "b", "c", "e", "a", "TRUE", "k", "red", "''", "y", "p", "f()", "r", "3", "'b'", "300",
            "9223372036854775807"]
CONSTANTS = ["1", "2", "3", "k", "'a'", "ch", "red", "TRUE", "0", "-1", "9223372036854775807", "x", "'ab'", "late", "E"]
STEPS = ["1", "0", "-1", "k", "x", "'a'", "1 - 1", "TRUE", "2 * 3", "(1; TRUE)", "f()"]
LABELS = ["1", "2", "3", "'a'", "red", "TRUE", "k", "x", "-1", "1 + 1", "blue", "FALSE", "(2)", "'ab'", "zz"]
DECLARED = """MODULE W; CONST k = 3; ch = 'q'; TYPE E = (red, green, blue); S = [1..5]; A = ARRAY [1..3] OF INTEGER; \
R = RECORD f: INTEGER; g: A; h: BOOLEAN END; VAR x, y: INTEGER; s1: S; b: BOOLEAN; c: CHAR; e: E; a: A; m: ARRAY E, [0..1] OF CHAR; r: R; \
rr: ARRAY [1..2] OF R; bb: [FALSE..TRUE]; PROCEDURE p; BEGIN TRUE END p; PROCEDURE pv(VAR q: INTEGER); BEGIN TRUE END pv; \
PROCEDURE pm(MIX q: INTEGER); BEGIN TRUE END pm; PROCEDURE ps(q: S); BEGIN TRUE END ps; PROCEDURE f(): INTEGER; BEGIN RETURN 1 END f; \
PROCEDURE fb(q: CHAR): BOOLEAN; BEGIN RETURN TRUE END fb; PROCEDURE vp(VAR q: A; w: A); BEGIN TRUE END vp; \
PROCEDURE mp(MIX q: R; MIX w: S); BEGIN TRUE END mp;"""
# Procedures that stand behind what calls them; of some the heading breaks a rule.
LATE = ["PROCEDURE late(q: INTEGER): CHAR; BEGIN RETURN 'a' END late;", "PROCEDURE late(q: zz): CHAR; BEGIN RETURN 'a' END late;",
        "PROCEDURE late(q, q: INTEGER); BEGIN TRUE END late;", "PROCEDURE late(q: INTEGER): A; BEGIN RETURN 1 END late;",
        "PROCEDURE late; BEGIN zz END late;", "PROCEDURE late; BEGIN TRUE END lat;"]
LATEST = ["PROCEDURE bl(): zz; END bl;", "PROCEDURE bl(VAR q: x); END bl;", "PROCEDURE bl; END bl;", "PROCEDURE bl(): BOOLEAN; END bl;"]


class Wild:
    """size: how deep a phrase may be."""
    def __init__(self, random):
        self.random = random

    def pick(self, *choices):
        return self.random.choice(choices)

    def chance(self, part):
        return self.random.random() < part

    # -- expressions

    def name(self):
        return self.pick(*NAMES)

    def desig(self, size):
        if self.chance(.6):
            return self.pick(*DESIGNATORS)
        text = self.name()
        for _ in range(self.pick(0, 0, 1, 1, 2)):
            if self.chance(.4):
                text += "." + self.pick("f", "g", "h", "zz", "x")
            else:
                text += f"[{', '.join(self.expr(size - 1) for _ in range(self.pick(1, 1, 2)))}]"
        return text

    def expr(self, size):
        text = self.simple(size)
        if size > 0 and self.chance(.25):
            text += f" {self.pick('=', '=', '<', '#', '>=')} {self.simple(size - 1)}"
        return text

    def simple(self, size):
        text = self.pick("", "", "", "", "", "-", "+") + self.term(size)
        for _ in range(self.pick(0, 0, 0, 1, 2) if size > 0 else 0):
            text += f" {self.pick('+', '-', 'OR', '+', 'OR')} {self.term(size - 1)}"
        return text

    def term(self, size):
        text = self.factor(size)
        for _ in range(self.pick(0, 0, 0, 0, 1, 2) if size > 0 else 0):
            text += f" {self.pick('*', 'DIV', 'MOD', 'AND', 'AND')} {self.factor(size - 1)}"
        return text

    def factor(self, size):
        return self.pick("", "", "", "", "", "NOT ") + self.prim(size)

    def prim(self, size):
        drawn = self.random.random()
        if size <= 0 or drawn < .2:
            return self.pick(*OPERANDS, self.name())
        if drawn < .5:
            return self.desig(size)
        if drawn < .75:
            call = self.pick(*CALLS)
            return call % tuple(self.pick(self.desig(size - 1), self.expr(size - 1)) for _ in range(call.count("%s")))
        if drawn < .82:
            return f"({'; '.join(self.stmt(size - 1) for _ in range(self.pick(1, 1, 2)))})"
        if drawn < .9:
            return f"({self.expr(size - 1)})"
        if drawn < .94:
            return f"KNOWN({self.desig(size - 1)})"
        return f"{self.pick('ORD', 'CHR')}({self.expr(size - 1)})"

    def const(self, size):
        if not self.chance(.75):
            return self.expr(size)
        drawn = self.random.random()
        if size <= 0 or drawn < .4:
            return self.pick(*CONSTANTS)
        if drawn < .6:
            return f"{self.const(size - 1)} {self.pick('+', '-', '*', 'DIV', 'MOD', '*')} {self.const(size - 1)}"
        if drawn < .7:
            return f"({self.const(size - 1)})"
        if drawn < .8:
            return f"{self.pick('ORD', 'CHR')}({self.const(size - 1)})"
        return self.pick("-", "+", "NOT ") + self.const(size - 1)

    # -- statements

    def stmts(self, size):
        return "; ".join(self.stmt(size) for _ in range(self.pick(1, 1, 2)))

    def stmt(self, size):
        drawn = self.random.random()
        if size <= 0 or drawn < .2:
            return f"{self.desig(size)} := {self.expr(size)}"
        inner = size - 1
        forms = [(.4, lambda: self.expr(size)), (.45, lambda: self.branch(inner)), (.5, lambda: self.loop(inner)), (.6, lambda: self.counted(inner)),
                 (.7, lambda: self.case(inner)), (.74, lambda: f"EITHER {self.stmts(inner)} ORELSE {self.stmts(inner)} END"),
                 (.78, lambda: f"FORALL {self.stmts(inner)} DO {self.stmts(inner)} END"), (.8, lambda: f"COMMIT {self.stmts(inner)} END"),
                 (.86, lambda: "RETURN" + self.pick("", " " + self.expr(inner))), (.91, lambda: f"READ({self.desig(size)})"),
                 (1, lambda: self.write(inner))]
        return next(form for end, form in forms if drawn < end)()

    def branch(self, size):
        return f"IF {self.expr(size)} THEN {self.stmts(size)} ELSIF {self.expr(size)} THEN {self.stmts(size)} ELSE {self.stmts(size)} END"

    def loop(self, size):
        return self.pick(f"WHILE {self.expr(size)} DO {self.stmts(size)} END", f"REPEAT {self.stmts(size)} UNTIL {self.expr(size)}")

    def counted(self, size):
        word = self.pick("FOR", "SOME")
        by = " BY " + self.pick(*STEPS) if word == "FOR" and self.chance(.5) else ""
        name = self.pick("x", "e", "c", "b", "s1", "l", self.name())
        return f"{word} {name} := {self.expr(size)} TO {self.expr(size)}{by} DO {self.stmts(size)} END"

    def case(self, size):
        value = self.pick("x", "e", "c", "b", "1", "k", "x + 1", self.expr(size))
        arms = " | ".join(f"{', '.join(self.label() for _ in range(self.pick(1, 1, 2)))}: {self.stmt(0)}" for _ in range(self.pick(1, 2)))
        return f"CASE {value} OF {arms}{self.pick('', ' ELSE ' + self.stmt(0))} END"

    def label(self):
        text = self.pick(*LABELS)
        return text + (".." + self.pick("3", "'c'", "blue", "5", "0", "k", "TRUE") if self.chance(.3) else "")

    def write(self, size):
        word = self.pick("WRITE", "WRITELN")
        items = [self.pick(self.expr(size), "'ab'", "e", "c") for _ in range(self.pick(1, 2))]
        return f"{word}({', '.join(items)})"

    # -- declarations

    def plain(self, size):
        drawn = self.random.random()
        if drawn < .3:
            return self.pick("INTEGER", "CHAR", "E", "S", "A", "R", "BOOLEAN", "x", "zz", "k", "T8", "p", "late")
        if drawn < .4:
            return f"({', '.join(self.pick('n1', 'n2', 'red', 'x', 'n3') for _ in range(self.pick(1, 2, 3)))})"
        if drawn < .75 or size <= 0:
            return f"[{self.const(1)}..{self.const(1)}]"
        return f"RECORD {'; '.join(self.fields(size) for _ in range(self.pick(1, 2, 3)))} END"

    def fields(self, size):
        return self.pick("", f"{self.pick('f', 'g', 'f, g', 'f, f', 'h')}: {self.type(size - 1)}")

    def type(self, size):
        text = ""
        for _ in range(self.pick(0, 0, 1, 1, 2)):
            text += f"ARRAY {', '.join(self.index() for _ in range(self.pick(1, 1, 2)))} OF "
        return text + self.plain(size)

    def index(self):
        return self.plain(0) if self.chance(.4) else self.pick("S", "E", "[1..3]", "BOOLEAN", "CHAR")

    def decl(self, size):
        drawn = self.random.random()
        if drawn < .3:
            return f"CONST {self.pick('n1', 'n2', 'x', 'T8')} = {self.const(2)};"
        if drawn < .5:
            return f"TYPE {self.pick('T8', 'T9', 'x', 'n1')} = {self.type(2)};"
        if drawn < .7:
            return f"VAR {self.pick('v1', 'v1, v2', 'n1', 'v1, v1', 'x')}: {self.type(2)};"
        name = self.pick("w1", "w2", "x", "n1", "p")
        formals = "; ".join(self.formal() for _ in range(self.pick(0, 1, 1, 2)))
        result = self.pick("", "", ": INTEGER", ": A", ": zz", ": BOOLEAN", ": x", ": E")
        inner = self.decl(size - 1) if size > 0 and self.chance(.4) else ""
        return f"PROCEDURE {name}({formals}){result}; {inner} BEGIN {self.stmts(2)} END {self.pick(name, name, name, name, 'w1')};"

    def formal(self):
        mode, names = self.pick("", "", "VAR ", "MIX "), self.pick("a", "b", "a, d", "a, a", "x", "INTEGER")
        return f"{mode}{names}: {self.pick('INTEGER', 'INTEGER', 'A', 'R', 'CHAR', 'zz', 'x', 'S', 'k', 'a')}"

    def program(self):
        drawn = self.random.random()
        parts, late = [DECLARED], [self.pick(*LATE), self.pick(*LATEST)]
        if drawn < .3:
            parts += [self.decl(2), *late, "BEGIN", self.stmts(2)]
        elif drawn < .6:
            parts += [f"PROCEDURE w(l: INTEGER){self.pick('', ': INTEGER', ': A')}; BEGIN {self.stmts(3)} END w;", *late, "BEGIN TRUE"]
        else:
            parts += [*late, "BEGIN", self.stmts(3)]
        return " ".join([*parts, "END W."])


def wild(random):
    return Wild(random).program().encode()
