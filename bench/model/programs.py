"""Random programs that break no rule on names and types: well_typed(seed, small) gives a source and an input."""
import re

from phrases import BOOL, CHAR, INT, PRINTED, Phrases, Type, Variable

VARIABLES = ["x", "y", "i", "j", "n", "b", "c", "e", "u", "v", "w", "z"]
CONSTANTS = "CONST k = 2; m = -1; ch = 'b'; yes = TRUE; big = 9223372036854775807;"


class Procedure:
    """params: of each its mode, name and type; nth: how many stand before it in its block."""
    def __init__(self, name, params, result, nth, parent):
        self.name, self.params, self.result, self.nth, self.parent = name, params, result, nth, parent


class Program(Phrases):
    """small: with few procedures and statements, and without types that are not used."""
    def __init__(self, seed, small):
        super().__init__(seed)
        self.small, self.numbered = small, 0

    def program(self):
        parts = ["MODULE P;"]
        if self.chance(.5):
            parts.append(CONSTANTS)
            self.consts = ["k", "m"]
        parts.append(self.declared_types())
        parts.append(self.variables(VARIABLES, self.env, 4))
        for name, type in (("a", self.types["A"]), ("r", self.types["R"])):
            if self.chance(.5):
                self.env[name] = Variable(name, type)
                parts.append(f"VAR {name}: {type.name};")
        begin = self.assigned(list(self.env.values()), self.pick([.3, .6, .8]))
        known = set(self.known)
        recursive = self.small and self.chance(.25)
        if recursive:
            parts.append(self.recursive())
        parts += self.procedures(None, self.pick([0, 1, 1, 2] if self.small else [0, 1, 1, 2, 3]), 0)
        self.known = known
        parts += ["BEGIN " + "; ".join(self.module_body(begin, recursive)), "END P."]
        text = " ".join(part for part in parts if part)
        return self.with_breaks(self.without_unused(text) if self.small else text)

    def module_body(self, begin, recursive):
        body = begin + self.held_stmts()
        name = self.number_var(exact=True) if recursive else None
        if name:
            body.insert(self.random.randint(0, len(body)), f"EITHER rec({self.random.randint(1, 3)}, {name}) ORELSE WRITE('r') END")
        if self.chance(.6):
            body.append(self.show_all())
        if self.chance(.2):
            body.append("FALSE")
        return body

    # -- types and variables

    def declared_types(self):
        enum = Type("enum", "E", 0, 2, consts=["red", "green", "blue"])
        short, from_one = Type("subrange", "S", 0, 3, INT), Type("subrange", "S1", 1, 3, INT)
        letters, colours = Type("subrange", "C", 97, 100, CHAR), Type("subrange", "F", 0, 1, enum)
        tests = Type("subrange", "BB", 0, 1, BOOL)
        two, three = Type("subrange", "[0..1]", 0, 1, INT), Type("subrange", "[1..3]", 1, 3, INT)
        array = Type("array", "A", index=self.pick([from_one, three]), elem=self.pick([INT, short]))
        by_test = Type("array", "B", index=BOOL, elem=self.pick([INT, enum, BOOL]))
        matrix = Type("array", "M", index=enum, elem=Type("array", None, index=two, elem=self.pick([short, INT, CHAR])))
        record = Type("record", "R", fields=[("f", INT), ("g", array), ("h", BOOL)])
        records, empty = Type("array", "Q", index=three, elem=record), Type("record", "Z", fields=[])
        all_types = [enum, short, from_one, letters, colours, tests, array, by_test, matrix, record, records, empty]
        self.types = {type.name: type for type in all_types}
        texts = ["(red, green, blue)", "[0..3]", "[1..3]", "['a'..'d']", "[red..green]", "[FALSE..TRUE]",
                 f"ARRAY {array.index.name} OF {array.elem.name}", f"ARRAY BOOLEAN OF {by_test.elem.name}",
                 f"ARRAY E, [0..1] OF {matrix.elem.elem.name}", "RECORD f: INTEGER; g: A; h: BOOLEAN END", "ARRAY [1..3] OF R", "RECORD END"]
        return "TYPE " + " ".join(f"{name} = {text};" for name, text in zip(self.types, texts))

    def without_unused(self, source):
        """The types refer to earlier ones only."""
        for type in reversed(list(self.types.values())):
            found = re.search(rf"\b{type.name} = [^;]*(?:; g: A; h: BOOLEAN END)?;", source)
            rest = source[:found.start()] + source[found.end():]
            if not any(re.search(rf"\b{word}\b", rest) for word in [type.name] + (type.consts or [])):
                source = rest
        return source

    def some_type(self):
        types = list(self.types.values())
        return self.pick([INT] * 7 + [BOOL] * 2 + [CHAR] + types[:6] + [types[1]] * 2 + types[6:8] * 2 + types[6:11] +
                         ([types[11]] if self.chance(.2) else []))

    def variables(self, names, env, least=0):
        found = []
        for name in names[:self.random.randint(least, len(names))]:
            type = INT if self.chance(.35) else self.some_type()
            found.append(f"{name}: {type.name};")
            env[name] = Variable(name, type)
        return "VAR " + " ".join(found) if found else ""

    def assigned(self, vars, part):
        """Assignments to a part of the variables."""
        found = []
        for var in vars:
            if not self.chance(part):
                continue
            if var.type.simple:
                found.append(f"{var.name} := {self.const_of(var.type)}")
                self.known.add(var)
            elif var.type.kind == "array" and var.type.elem.simple and var.type.index.base is INT:
                found.append("; ".join(f"{var.name}[{index}] := {self.const_of(var.type.elem)}" for index in (1, 2, 3)))
                self.known.add(var)
        return found

    # -- procedures

    def recursive(self):
        """A procedure that calls itself with a smaller number and leaves choices open."""
        body = self.pick(["EITHER WRITE(n) ORELSE v = n END; %s", "%s; SOME v := 0 TO n DO WRITE(v, ',') END",
                          "EITHER %s ORELSE RETURN END; v := v + n", "FORALL %s DO WRITE(n, v) END", "v = n; NOT (%s; v <> 1)",
                          "EITHER v := n ORELSE v := 7 END; %s; WRITE(v)", "COMMIT EITHER %s ORELSE v = 3 END END"])
        mode, passed, end = self.pick(["VAR", "MIX"]), self.pick(["v", "v", "l"]), self.pick(["TRUE", "WRITE('e')", "v < 2"])
        body %= f"IF n > 0 THEN rec(n - 1, {passed}) ELSE {end} END"
        return f"PROCEDURE rec(n: INTEGER; {mode} v: INTEGER); VAR l: INTEGER; BEGIN {body} END rec;"

    def procedures(self, parent, count, level):
        """All headings are made first, so that a body may call a later procedure."""
        made = [self.heading(parent, nth) for nth in range(count)]
        around = list(self.procs)
        self.procs += made
        texts = [self.procedure(proc, level) for proc in made]
        self.procs = around + made
        return texts

    def heading(self, parent, nth):
        self.numbered += 1
        params = []
        for name in self.random.sample(["p", "q", "s", "t", "a1", "x", "y", "n", "o"], self.pick([0, 1, 1, 2, 3])):
            mode = self.pick(["value", "value", "VAR", "VAR", "MIX", "MIX"])
            params.append((mode, name, INT if self.chance(.45) else self.some_type()))
        result = self.pick([None, None, None, INT, BOOL, self.types["S"], self.types["E"]])
        return Procedure(f"{self.pick(['f', 'g', 'h'])}{self.numbered}", params, result, nth, parent)

    def procedure(self, proc, level):
        keep = self.env, self.known, self.proc, self.barred, self.loops
        self.env, self.known, self.proc, self.barred, self.loops = dict(self.env), set(self.known), proc, 0, 0
        for mode, name, type in proc.params:
            self.env[name] = var = Variable(name, type)
            if mode != "VAR" and type.simple and (mode == "value" or self.chance(.3)):
                self.known.add(var)
        params = "; ".join(f"{'' if mode == 'value' else mode + ' '}{name}: {type.name}" for mode, name, type in proc.params)
        params = f"({params})" if proc.params or proc.result else self.pick(["", "()"])
        parts = [f"PROCEDURE {proc.name}{params}{': ' + proc.result.name if proc.result else ''};"]
        taken, local = {name for _, name, _ in proc.params}, {}
        parts.append(self.variables([name for name in self.random.sample(["l", "l2", "x", "i", "y", "b", "z"], 4) if name not in taken], local))
        self.env.update(local)
        begin = self.assigned(list(local.values()), .5)
        if level < 3 and self.chance(.4):
            parts += self.procedures(proc, self.pick([1, 1, 2]), level + 1)
        self.budget = self.pick([2, 4, 8])
        body = begin + self.stmts(self.random.randint(1, 4))
        if proc.result and self.chance(.95):
            body.append(self.returned(proc.result))
        parts += ["BEGIN " + "; ".join(body), f"END {proc.name};"]
        self.env, self.known, self.proc, self.barred, self.loops = keep
        return " ".join(part for part in parts if part)

    def returned(self, type):
        text = f"RETURN {self.expr(type, 2)}"
        if self.chance(.3):
            text = f"EITHER {text} ORELSE RETURN {self.expr(type, 1)} END"
        if self.chance(.15):
            name = self.number_var()
            if name:
                text = f"SOME {name} := 0 TO 2 DO RETURN {self.expr(type, 1)} END"
        return text

    # -- the module body

    def held_stmts(self):
        """Statements of which those that may fail are mostly held, so that the rest is reached."""
        found = []
        for _ in range(self.pick([3, 4, 6] if self.small else [4, 6, 9, 13])):
            self.budget = self.pick([3, 5, 8, 12])
            found.append(self.held(self.top_stmt()))
            if self.chance(.35):
                found.append(self.show())
        if self.chance(.015):
            found.append(f"WHILE TRUE DO {self.block(2)} END")
        return found

    def top_stmt(self):
        if self.chance(.35):
            return self.top_call() or self.stmt()
        return self.search() if self.chance(.25) else self.stmt()

    def top_call(self):
        procs = [proc for proc in self.procs if self.callable(proc)]
        proc = self.pick(procs) if procs else None
        text = self.call(proc) if proc else None
        if not text or not proc.result:
            return text
        found = self.desigs(lambda type: type.simple and type.base is proc.result.base)
        return f"{self.pick(found)[1]} {self.pick([':=', '=', '='])} {text}" if found else None

    def held(self, text):
        drawn = self.random.random()
        if drawn < .3:
            other = self.pick(["TRUE", "WRITE('n')", self.write(), self.block(1)])
            return f"EITHER {text} ORELSE {other} END"
        if drawn >= .56 or "RETURN" in text:
            return text
        if drawn < .38:
            return f"COMMIT EITHER {text} ORELSE WRITE('m') END END"
        if drawn < .46:
            return f"IF ({text}) THEN {self.write()} ELSE WRITE('e') END"
        if drawn < .52:
            return f"FORALL {text} DO {self.block(2)} END"
        return f"IF NOT ({text}) THEN WRITE('N') END"

    def search(self):
        """A search for two numbers, or for the elements of an array."""
        vars = [var for var in self.env.values() if var.type.base is INT]
        arrays = [var for var in self.env.values() if var.type.kind == "array" and var.type.elem.base is INT and var.type.index.base is INT]
        if len(vars) < 2:
            return self.stmt()
        self.random.shuffle(vars)
        one, other = vars[0].name, vars[1].name
        if self.random.random() < .4 or not arrays:
            text = f"SOME {one} := 1 TO 3 DO SOME {other} := 1 TO {self.pick(['3', '2', one])} DO {one} <> {other}; {self.block(1)} END END"
        else:
            name = self.pick(arrays).name
            text = f"FOR {one} := 1 TO 3 DO SOME {other} := 1 TO 3 DO {name}[{one}] {self.pick(['=', ':=', '='])} {other} END END; " \
                f"{name}[1] <> {name}[2]"
            if self.chance(.5):
                text += f"; {name}[2] < {name}[3]; WRITE({name}[1])"
        if self.chance(.5):
            text += f"; WRITE({one}); {self.cond(1)}"
        self.known |= {vars[0], vars[1]}
        return text

    def show_all(self):
        """The cells of variables that are known, but not too many."""
        found = []
        for var in self.env.values():
            for text, type in self.cells(var.name, var.type)[:6]:
                if self.chance(.5):
                    found.append(f"IF KNOWN({text}) THEN WRITE({text if type.base in PRINTED else f'ORD({text})'}, '_') END")
        return "; ".join(found[:6]) or "WRITE(1)"

    def cells(self, text, type):
        if type.simple:
            return [(text, type)]
        if type.kind == "record":
            return [cell for name, field in type.fields for cell in self.cells(f"{text}.{name}", field)]
        return self.cells(f"{text}[{self.const_of(type.index)}]", type.elem)

    def with_breaks(self, text):
        """Some blanks become line ends or comments."""
        found, part = [], self.pick([.02, .06, .3])
        for char in text:
            if char == " " and self.chance(part):
                found.append(self.pick(["\n", "\n", "\n", " (* c *) ", "\t", "\r\n"]))
            else:
                found.append(";\n" if char == ";" and self.chance(.7) else char)
        return "".join(found)

    def input(self):
        return "".join(self.pick(["1", "2", "3", " ", " ", "0", "\n", "a", "b", "-", "7", "+", "\t"])
                       for _ in range(self.random.randint(0, 14))).encode()


def well_typed(seed, small=False):
    program = Program(seed, small)
    return program.program().encode(), program.input()
