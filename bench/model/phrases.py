"""Random expressions and statements that break no rule on names and types, and mostly come to an end without a fault."""
import random


class Type:
    """kind: int, bool, char, enum, subrange, array or record; of a number the values from `low` to `high` are written."""
    def __init__(self, kind, name, low=0, high=0, base=None, index=None, elem=None, fields=None, consts=None):
        self.kind, self.name, self.low, self.high = kind, name, low, high
        self.base = base or self
        self.index, self.elem, self.fields, self.consts = index, elem, fields, consts
        self.simple = kind not in ("array", "record")


INT, BOOL, CHAR = Type("int", "INTEGER", -9, 9), Type("bool", "BOOLEAN", 0, 1), Type("char", "CHAR", 0, 255)
PRINTED = (INT, CHAR, BOOL)


class Variable:
    def __init__(self, name, type):
        self.name, self.type = name, type


class Phrases:
    """env: the variables by name; known: those that likely have a value; procs: the procedures, of which some may be called; budget: how many
    statements may still be written; depth: how deep the phrase is; barred: how many tests, FORALL and COMMIT it is in."""
    def __init__(self, seed):
        self.random = random.Random(seed)
        self.budget = self.pick([12, 20, 30, 40, 60])
        self.faulty = self.pick([0, 0, 0.01, 0.03])
        self.env, self.known, self.procs, self.consts = {}, set(), [], []
        self.proc, self.depth, self.barred, self.loops = None, 0, 0, 0

    def chance(self, part):
        return self.random.random() < part

    def pick(self, choices):
        return self.random.choice(choices)

    def by_chance(self, forms, below=1):
        """What one of some functions gives; of each stands where its part of 1 ends."""
        drawn = self.random.random() * below
        return next(form for end, form in forms if drawn < end)()

    # -- designators

    def const_of(self, type):
        base = type.base
        if type is INT:
            return self.pick(self.consts) if self.consts and self.chance(.1) else str(self.random.randint(0, 4))
        if base is INT:
            return str(self.random.randint(type.low, type.high))
        if base is BOOL:
            return self.pick(["TRUE", "FALSE"])
        if base is CHAR:
            return "'%s'" % self.pick("abcd" if type is not CHAR else "abcdxyz")
        return self.pick(base.consts[type.low:type.high + 1])

    def desigs(self, wanted):
        """Variables and their parts whose type is wanted: the variable, the designator and its type."""
        found = []
        for var in self.env.values():
            self.parts(var, var.name, var.type, wanted, found)
        return found

    def parts(self, var, text, type, wanted, found):
        if wanted(type):
            found.append((var, text, type))
        if type.kind == "record":
            for name, field in type.fields:
                self.parts(var, f"{text}.{name}", field, wanted, found)
        elif type.kind == "array":
            if type.elem.kind == "array" and self.chance(.3):
                indexes = f"{self.index(type.index)}, {self.index(type.elem.index)}"
                self.parts(var, f"{text}[{indexes}]", type.elem.elem, wanted, found)
            else:
                self.parts(var, f"{text}[{self.index(type.index)}]", type.elem, wanted, found)

    def index(self, type):
        if self.chance(.65) or self.depth > 8:
            return self.const_of(type)
        self.depth += 5
        text = None
        known = [var for var in self.env.values() if var in self.known and var.type.base is type.base]
        if known and self.chance(.8):
            text = self.pick(known).name
            if type.base is INT and self.chance(.5):
                text = f"{text} MOD 2 + 1"
        elif self.chance(.2):
            text = self.expr(type, 1)
        self.depth -= 5
        return text or self.const_of(type)

    def var(self, wanted, known=None):
        """A designator whose type is wanted, mostly one that likely has a value, or likely has none."""
        found = self.desigs(wanted)
        if known is not None:
            fitting = [one for one in found if (one[0] in self.known) == known]
            if fitting and self.chance(.97):
                found = fitting
            elif known and self.chance(.96):
                return None
        return self.pick(found)[1] if found else None

    def value_of(self, base):
        return self.var(lambda type: type.simple and type.base is base, True)

    def number_var(self, exact=False):
        names = [var.name for var in self.env.values() if (var.type is INT if exact else var.type.base is INT)]
        return self.pick(names) if names else None

    # -- calls

    def callable(self, proc):
        """Whether a call likely comes to an end: of a procedure inside this one, or of an earlier one beside it or beside one around it."""
        if self.proc is None:
            return proc.parent is None
        around, here = [], self.proc
        while here is not None:
            around.append(here)
            here = here.parent
        if proc in around:
            return self.chance(.003)
        if proc.parent is self.proc:
            return True
        beside = [one for one in around if one.parent is proc.parent]
        return bool(beside) and (proc.nth < beside[0].nth or self.chance(.004))

    def call(self, proc):
        args = []
        for mode, _, type in proc.params:
            text = self.arg(mode, type)
            if text is None:
                return None
            args.append(text)
        if not args and proc.result is None and self.chance(.5):
            return proc.name
        return f"{proc.name}({', '.join(args)})"

    def arg(self, mode, type):
        if mode == "VAR" or not type.simple:
            return self.var(lambda other: other is type)
        if mode == "MIX" and self.chance(.65):
            return self.var(lambda other: other is type) or f"({self.expr(type, 1)})"
        text = self.expr(type, 1)
        return f"({text})" if mode == "MIX" else text

    def action(self):
        procs = [proc for proc in self.procs if proc.result is None and self.callable(proc)]
        return self.call(self.pick(procs)) if procs else None

    def function(self, base):
        procs = [proc for proc in self.procs if proc.result and proc.result.base is base and self.callable(proc)]
        return self.call(self.pick(procs)) if procs and self.depth < 9 else None

    # -- expressions with the base of a type; size: how deep they may be

    def expr(self, type, size):
        self.depth += 1
        try:
            return self.expr_form(type, size)
        finally:
            self.depth -= 1

    def factor(self, type, size):
        text = self.expr(type, size)
        return text if text.replace("_", "a").isalnum() else f"({text})"

    def expr_form(self, type, size):
        base = type.base
        if size <= 0 or self.depth > 7:
            text = self.value_of(base) if self.chance(.6) else None
            return text or self.const_of(type)
        drawn = self.random.random()
        if base is INT:
            return self.number(type, size, drawn)
        if base is BOOL:
            return self.cond(size)
        if base is CHAR and drawn < .3:
            return "CHR(%s)" % self.pick(["97", "98", f"{self.factor(INT, size - 1)} MOD 20 + 97"])
        text = self.function(base) if drawn < .3 else self.value_of(base)
        return text or self.const_of(type)

    def number(self, type, size, drawn):
        if drawn < .3:
            return self.value_of(INT) or self.const_of(type)
        if drawn < .4:
            return self.const_of(type)
        if drawn < .7:
            op = self.pick(["+", "+", "-", "*"])
            text = f"{self.factor(INT, size - 1)} {op} {self.factor(INT, size - 1)}"
            return self.pick(["-", "+"]) + text if self.chance(.2) else text
        if drawn < .77:
            by = self.pick(["1", "2", "3", "(-2)"]) if not self.chance(self.faulty * 3) else self.factor(INT, size - 1)
            return f"{self.factor(INT, size - 1)} {self.pick(['DIV', 'MOD'])} {by}"
        if drawn < .83:
            return f"ORD({self.expr(self.pick([self.types['E'], CHAR, BOOL, BOOL]), size - 1)})"
        if drawn < .95:
            return self.function(INT) or self.const_of(type)
        if self.chance(self.faulty):
            return self.pick(["9223372036854775807 + 1", "1 DIV 0", "-9223372036854775807 - 2"])
        return self.const_of(type)

    # -- tests

    def cond(self, size):
        if size <= 0 or self.depth > 7:
            return self.pick(["TRUE", "FALSE", "TRUE", self.relation(0)])
        return self.by_chance([
            (.25, lambda: self.relation(size)),
            (.4, lambda: self.equation(size)),
            (.5, self.known_test),
            (.57, lambda: f"NOT {self.test_factor(size - 1)}"),
            (.67, lambda: " AND ".join(self.test_factor(size - 1) for _ in range(self.pick([2, 2, 3])))),
            (.77, lambda: " OR ".join(self.test_factor(size - 1) for _ in range(self.pick([2, 2, 3])))),
            (.87, self.stmts_test),
            (.93, lambda: self.action() or self.function(BOOL) or "TRUE"),
            (.97, lambda: self.function(BOOL) or self.relation(size)),
            (1, lambda: self.value_of(BOOL) or "TRUE")])

    def test_factor(self, size):
        text = self.cond(size)
        return text if text.isalnum() else f"({text})"

    def known_test(self):
        text = self.var(lambda type: type.simple)
        return f"KNOWN({text})" if text else "TRUE"

    def stmts_test(self):
        self.barred += 1
        keep = set(self.known)
        text = f"({'; '.join(self.stmts(self.pick([1, 2, 2, 3]), small=True))})"
        self.known = keep
        self.barred -= 1
        return text

    def relation(self, size):
        type = self.pick([INT, INT, INT, CHAR, self.types["E"], BOOL])
        left, right = self.factor(type, size - 1), self.factor(type, size - 1)
        return f"{left} {self.pick(['<>', '#', '<', '<=', '>', '>=', '<>'])} {right}"

    def equation(self, size):
        drawn = self.random.random()
        found = self.desigs(lambda type: type.simple)
        if not found or drawn < .1:
            type = self.pick([INT, INT, self.types["E"]])
            return f"({self.expr(type, size - 1)}) = {self.factor(type, size - 1)}"
        var, text, type = self.pick(found)
        if drawn < .65:
            return f"{text} = {self.const_of(type) if self.chance(.5) else self.factor(type, size - 1)}"
        if drawn < .8:
            return f"{self.factor(type, size - 1)} = {text}"
        if drawn < .9:
            other = self.var(lambda other: other.simple and other.base is type.base, var not in self.known)
            return f"{text} = {other or self.const_of(type)}"
        return self.equation_of_cells() or f"{self.factor(INT, 0)} >= 0"

    def equation_of_cells(self):
        found = self.desigs(lambda type: not type.simple)
        if not found:
            return None
        var, text, type = self.pick(found)
        other = self.var(lambda other: other is type, var not in self.known)
        return f"{text} = {other}" if other and (var in self.known or self.chance(.2)) else None

    # -- statements

    def stmts(self, count, small=False):
        found = []
        for _ in range(count):
            if self.budget <= 0 and found:
                break
            found.append(self.stmt(small))
            if self.chance(.03):
                found.append("")
        return found

    def block(self, count=None):
        keep = set(self.known)
        found = self.stmts(count or self.pick([1, 1, 2, 3]))
        if self.chance(.3):
            found.append(self.show())
        self.known = keep
        return "; ".join(found)

    def show(self):
        text = self.var(lambda type: type.base in PRINTED)
        if text is None:
            return "WRITE('o')"
        return self.pick([f"IF KNOWN({text}) THEN WRITE({text}) ELSE WRITE('?') END", f"WRITE(KNOWN({text}))"])

    def stmt(self, small=False):
        self.budget -= 1
        self.depth += 1
        try:
            for _ in range(5):
                text = self.stmt_form(small or self.depth > 5 or self.budget <= 0)
                if text is not None:
                    return text
            return "TRUE"
        finally:
            self.depth -= 1

    def stmt_form(self, small):
        """A statement, or nothing; a small one has none inside."""
        return self.by_chance([
            (.13, self.assign), (.16, self.copy), (.28, self.write), (.37, lambda: self.equation(2)), (.44, lambda: self.cond(2)),
            (.49, self.action), (.52, self.read_or_return), (.64, self.either), (.73, lambda: self.loop("SOME")), (.80, self.forall),
            (.84, self.commit), (.86, lambda: f"NOT {self.stmts_test()}"), (.91, self.branch), (.94, lambda: self.loop("FOR")),
            (.96, self.counted), (1, self.case)], .52 if small else 1)

    def assign(self):
        found = self.desigs(lambda type: type.simple)
        if not found:
            return None
        var, text, type = self.pick(found)
        is_const = self.chance(.3) or type.kind == "subrange" and self.chance(.7)
        text += f" := {self.const_of(type) if is_const else self.expr(type, 2)}"
        if var.type.simple:
            self.known.add(var)
        return text

    def copy(self):
        found = self.desigs(lambda type: not type.simple)
        if not found:
            return None
        _, text, type = self.pick(found)
        return f"{text} := {self.var(lambda other: other is type) or text}"

    def write(self):
        items = []
        for _ in range(self.pick([1, 1, 2, 3])):
            drawn = self.random.random()
            if drawn < .6:
                items.append(self.var(lambda type: type.base in PRINTED, True) or "'-'")
            elif drawn < .8:
                items.append(self.expr(self.pick([INT, INT, CHAR, BOOL]), 2))
            else:
                items.append(self.pick(["'.'", "'ab'", '"it"', "''", "'|'"]))
        return f"{'WRITELN' if self.chance(.2) else 'WRITE'}({', '.join(items)})"

    def read_or_return(self):
        if self.chance(.6):
            one = self.var(lambda type: type.base in (INT, CHAR))
            other = self.var(lambda type: type.base in (INT, CHAR)) if self.chance(.2) else None
            return f"READ({', '.join(text for text in (one, other) if text)})" if one else None
        if self.barred or self.proc is None and not self.chance(.1):
            return None
        if self.proc is not None and self.proc.result:
            return f"IF {self.cond(1)} THEN RETURN {self.expr(self.proc.result, 1)} END"
        return self.pick([f"IF {self.cond(1)} THEN RETURN END", f"EITHER RETURN ORELSE {self.block(1)} END"])

    def either(self, counts=(2, 2, 3)):
        return f"EITHER {' ORELSE '.join(self.block() for _ in range(self.pick(counts)))} END"

    def forall(self):
        self.barred += 1
        keep = set(self.known)
        part = self.by_chance([(.5, lambda: self.loop("SOME")), (.8, lambda: self.either((2, 3))), (1, lambda: "; ".join(self.stmts(2)))])
        text = f"FORALL {part or 'TRUE'} DO {self.block()} END"
        self.known = keep
        self.barred -= 1
        return text

    def commit(self):
        self.barred += 1
        text = f"COMMIT {'; '.join(self.stmts(self.pick([1, 2])))} END"
        self.barred -= 1
        return text

    def branch(self):
        text = f"IF {self.cond(2)} THEN {self.block()}"
        for _ in range(self.pick([0, 0, 0, 1])):
            text += f" ELSIF {self.cond(2)} THEN {self.block()}"
        if self.chance(.6):
            text += f" ELSE {self.block()}"
        return text + " END"

    def counted(self):
        """WHILE or REPEAT with a variable that counts, but for a few that do not."""
        name = self.number_var()
        if name is None or self.loops > 1:
            return None
        self.loops += 1
        last = self.random.randint(1, 4)
        cond = f"{name} < {last}"
        if self.chance(.3):
            cond = f"({cond}) AND {self.test_factor(1)}"
        step = f"{name} := {name} + 1"
        if self.chance(.02):
            step = "TRUE"
        if self.chance(.5):
            text = f"{name} := 0; WHILE {cond} DO {step}; {self.block()} END"
        else:
            text = f"{name} := 0; REPEAT {self.block()}; {step} UNTIL {name} >= {last}{'' if self.chance(.7) else ' - 1'}"
        self.loops -= 1
        return text

    def loop(self, word):
        vars = [var for var in self.env.values() if var.type.simple]
        if not vars:
            return None
        var = self.pick([var for var in vars if var.type.base is INT] or vars)
        if self.chance(.15):
            var = self.pick(vars)
        if var.type.base is INT:
            low, high, by = self.number_bounds(var.type, word)
        else:
            low, high, by = self.const_of(var.type), self.const_of(var.type), ""
            if word == "FOR" and self.chance(.2):
                by = " BY " + self.pick(["1", "-1", "2"])
        keep = set(self.known)
        self.known.add(var)
        text = f"{word} {var.name} := {low} TO {high}{by} DO {self.block()} END"
        self.known = keep
        if word == "SOME":
            self.known.add(var)
        return text

    def number_bounds(self, type, word):
        low = self.random.randint(0, 2) if type is INT else type.low
        high = low + self.pick([-1, 0, 1, 1, 2, 2, 3])
        if type is not INT and not self.chance(.1):
            high = min(high, type.high)
        low, high, by = str(low), str(high), ""
        if self.chance(.15):
            low = self.expr(INT, 1)
        if self.chance(.15):
            high = self.expr(INT, 1)
            if self.chance(.8):
                high = f"({high}) MOD 4"
        if word == "FOR" and self.chance(.3):
            step = self.pick(["2", "-1", "-2", "1 + 1"])
            by = " BY " + step
            if step[0] == "-":
                low, high = high, low
        return low, high, by

    def case(self):
        type = self.pick([INT, INT, self.types["E"], CHAR, BOOL])
        values = {"int": ["0", "1", "2", "3", "4"], "enum": ["red", "green", "blue"], "char": ["'a'", "'b'", "'c'", "'x'"],
                  "bool": ["FALSE", "TRUE"]}[type.kind]
        values = values[:self.random.randint(1, len(values))]
        arms = []
        while values:
            join = None
            if self.chance(.25) and len(values) > 1:
                join = ".."
            elif self.chance(.2) and len(values) > 1:
                join = ", "
            arms.append(f"{join.join(values[:2]) if join else values[0]}: {self.block(1)}")
            values = values[2 if join else 1:]
        if self.chance(.1):
            arms.insert(0, "")
        text = f"CASE {self.expr(type, 2)} OF {' | '.join(arms)}"
        if self.chance(.7):
            text += f" ELSE {self.block(1)}"
        return text + " END"
