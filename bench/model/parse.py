"""The grammar by recursive descent. Every phrase is a Node; nodes are numbered as they end, so that of two faults the first can be told."""
from scan import SourceFault

OPENERS = {"(", "[", "MODULE", "PROCEDURE", "RECORD", "IF", "WHILE", "REPEAT", "FOR", "CASE", "EITHER", "SOME", "FORALL", "COMMIT"}
CLOSERS = {")", "]", "END", "UNTIL"}
DEEPEST = 100
RELATIONS = {"=", "#", "<", "<=", ">", ">="}
EXPR_START = {"name", "number", "literal", "(", "KNOWN", "ORD", "CHR", "NOT", "+", "-"}
STMT_START = {"IF", "WHILE", "REPEAT", "FOR", "SOME", "CASE", "EITHER", "FORALL", "COMMIT", "RETURN", "READ", "WRITE", "WRITELN"}


class Node:
    """first: the index of its first token; its parts are attributes."""
    def __init__(self, kind, number, first, parts):
        self.kind, self.number, self.first = kind, number, first
        self.__dict__.update(parts)


class NotExpected(Exception):
    pass


class Parser:
    def __init__(self, tokens):
        self.tokens, self.here, self.number = tokens, 0, 0

    def kind(self):
        return self.tokens[self.here].kind if self.here < len(self.tokens) else None

    def at(self, *kinds):
        return self.kind() in kinds

    def need(self, kind):
        if self.kind() != kind:
            raise NotExpected()
        self.here += 1
        return self.here - 1

    def take(self, kind):
        if self.kind() == kind:
            self.here += 1
            return True
        return False

    def node(self, kind, first, **parts):
        made = Node(kind, self.number, first, parts)
        self.number += 1
        return made

    def name(self):
        here = self.need("name")
        return self.node("Name", here, text=self.tokens[here].text)

    def listed(self, read, mark):
        found = [read()]
        while self.take(mark):
            found.append(read())
        return found

    # -- declarations

    def module(self):
        start = self.need("MODULE")
        name = self.name()
        self.need(";")
        block = self.block()
        self.need("END")
        end = self.name()
        self.need(".")
        if self.here != len(self.tokens):
            raise NotExpected()
        return self.node("Module", start, name=name, block=block, end=end)

    def block(self):
        start, decls, body = self.here, [], None
        while self.at("CONST", "TYPE", "VAR", "PROCEDURE"):
            decls.append(self.decl())
        if self.take("BEGIN"):
            body = self.stmts()
        return self.node("Block", start, decls=decls, body=body)

    def decl(self):
        """The items of CONST, TYPE and VAR: a name (of VAR: names), what it is, and the token that ends it."""
        start, sort = self.here, self.kind()
        self.here += 1
        if sort == "PROCEDURE":
            return self.procedure(start)
        items = []
        while self.at("name"):
            name = self.names() if sort == "VAR" else self.name()
            self.need(":" if sort == "VAR" else "=")
            what = self.expr() if sort == "CONST" else self.type()
            items.append((name, what, self.need(";")))
        return self.node("Decl", start, sort=sort, items=items)

    def procedure(self, start):
        name, formals, result = self.name(), [], None
        if self.take("("):
            if self.at("VAR", "MIX", "name"):
                first = self.here
                formals = self.listed(self.formal, ";")
                self.node("Formals", first)
            self.need(")")
        if self.take(":"):
            result = self.name()
        self.need(";")
        block = self.block()
        self.need("END")
        end = self.name()
        self.need(";")
        return self.node("Decl", start, sort="PROCEDURE", name=name, formals=formals, result=result, block=block, end=end)

    def names(self):
        start = self.here
        return self.node("Names", start, names=self.listed(self.name, ","))

    def formal(self):
        start, mode = self.here, "value"
        if self.at("VAR", "MIX"):
            mode = self.kind()
            self.here += 1
        names = self.names()
        self.need(":")
        return self.node("Formal", start, mode=mode, names=names, type=self.name())

    def type(self):
        start, indexes = self.here, []
        if self.at("ARRAY"):
            while self.take("ARRAY"):
                indexes += self.listed(self.plain, ",")
                self.need("OF")
            self.node("Arrays", start)
        return self.node("Type", start, indexes=indexes, plain=self.plain())

    def plain(self):
        """A type that is no array: a name, an enumeration, a subrange or a record."""
        start = self.here
        if self.at("name"):
            return self.node("Plain", start, sort="name", name=self.name())
        if self.take("("):
            names = self.names()
            return self.node("Plain", start, sort="enum", names=names, close=self.need(")"))
        if self.take("["):
            low = self.expr()
            self.need("..")
            high = self.expr()
            self.need("]")
            return self.node("Plain", start, sort="subrange", low=low, high=high)
        self.need("RECORD")
        lists = self.listed(self.fields, ";")
        self.need("END")
        return self.node("Plain", start, sort="record", lists=lists)

    def fields(self):
        start = self.here
        if not self.at("name"):
            return self.node("Fields", start, names=None)
        names = self.names()
        self.need(":")
        return self.node("Fields", start, names=names, type=self.type())

    # -- statements

    def stmts(self):
        start = self.here
        return self.node("Stmts", start, list=self.listed(self.stmt, ";"))

    def stmt(self):
        start, kind = self.here, self.kind()
        if kind == "name":
            desig = self.desig()
            if self.take(":="):
                return self.node("Stmt", start, sort="assign", left=desig, right=self.expr())
            return self.node("Stmt", start, sort="expr", expr=self.expr(desig))
        if kind in EXPR_START:
            return self.node("Stmt", start, sort="expr", expr=self.expr())
        if kind not in STMT_START:
            return self.node("Stmt", start, sort="empty")
        self.here += 1
        parts = getattr(self, "stmt_" + kind)()
        return self.node("Stmt", start, sort=kind, **parts)

    def stmts_until(self, mark):
        found = self.stmts()
        self.need(mark)
        return found

    def stmt_IF(self):
        arms, other = self.listed(self.if_arm, "ELSIF"), None
        if self.take("ELSE"):
            other = self.stmts()
        self.need("END")
        return dict(arms=arms, other=other)

    def if_arm(self):
        cond = self.expr()
        self.need("THEN")
        return cond, self.stmts()

    def stmt_WHILE(self):
        cond = self.expr()
        self.need("DO")
        return dict(cond=cond, body=self.stmts_until("END"))

    def stmt_REPEAT(self):
        body = self.stmts_until("UNTIL")
        return dict(body=body, cond=self.expr())

    def stmt_FOR(self, has_by=True):
        name, by = self.name(), None
        self.need(":=")
        low = self.expr()
        self.need("TO")
        high = self.expr()
        if has_by and self.take("BY"):
            by = self.expr()
        self.need("DO")
        return dict(name=name, low=low, high=high, by=by, body=self.stmts_until("END"))

    def stmt_SOME(self):
        return self.stmt_FOR(False)

    def stmt_CASE(self):
        value, other = self.expr(), None
        self.need("OF")
        arms = self.listed(self.case_arm, "|")
        if self.take("ELSE"):
            other = self.stmts()
        self.need("END")
        return dict(value=value, arms=arms, other=other)

    def case_arm(self):
        start = self.here
        if not self.at(*EXPR_START):
            return self.node("Arm", start, labels=[], body=None)
        labels = self.listed(self.label, ",")
        self.need(":")
        return self.node("Arm", start, labels=labels, body=self.stmts())

    def label(self):
        start, low, high = self.here, self.expr(), None
        if self.take(".."):
            high = self.expr()
        return self.node("Label", start, low=low, high=high)

    def stmt_EITHER(self):
        branches = self.listed(self.stmts, "ORELSE")
        self.need("END")
        return dict(branches=branches)

    def stmt_FORALL(self):
        part = self.stmts_until("DO")
        return dict(part=part, body=self.stmts_until("END"))

    def stmt_COMMIT(self):
        return dict(body=self.stmts_until("END"))

    def stmt_RETURN(self):
        return dict(expr=self.expr() if self.at(*EXPR_START) else None)

    def stmt_READ(self):
        self.need("(")
        desigs = self.listed(self.desig, ",")
        self.need(")")
        return dict(desigs=desigs)

    def stmt_WRITE(self):
        self.need("(")
        items = self.listed(self.expr, ",")
        self.need(")")
        return dict(items=items)

    def stmt_WRITELN(self):
        return dict(items=self.maybe_exprs() if self.take("(") else [])

    def maybe_exprs(self):
        """What stands behind an open parenthesis that may be closed at once."""
        found = self.listed(self.expr, ",") if self.at(*EXPR_START) else []
        self.need(")")
        return found

    # -- expressions; `desig` was read already, and begins the phrase

    def expr(self, desig=None):
        start = desig.first if desig else self.here
        left, op, right = self.simple(desig), None, None
        if self.kind() in RELATIONS:
            op = self.kind()
            self.here += 1
            right = self.simple()
        return self.node("Expr", start, left=left, op=op, right=right)

    def operands(self, read, *ops):
        found = []
        while self.at(*ops):
            op = self.kind()
            self.here += 1
            found.append((op, read()))
        return found

    def simple(self, desig=None):
        start, sign = desig.first if desig else self.here, None
        if not desig and self.at("+", "-"):
            sign = self.kind()
            self.here += 1
        head = self.term(desig)
        return self.node("Simple", start, sign=sign, head=head, rest=self.operands(self.term, "+", "-", "OR"))

    def term(self, desig=None):
        start = desig.first if desig else self.here
        head = self.factor(desig)
        return self.node("Term", start, head=head, rest=self.operands(self.factor, "*", "DIV", "MOD", "AND"))

    def factor(self, desig=None):
        start = desig.first if desig else self.here
        negated = not desig and self.take("NOT")
        return self.node("Factor", start, negated=negated, prim=self.prim(desig))

    def prim(self, desig=None):
        start, kind = desig.first if desig else self.here, self.kind()
        if desig or kind == "name":
            desig = desig or self.desig()
            args = self.maybe_exprs() if self.take("(") else None
            return self.node("Prim", start, sort="desig", desig=desig, args=args)
        if kind in ("number", "literal"):
            self.here += 1
            return self.node("Prim", start, sort=kind, text=self.tokens[start].text)
        if kind == "(":
            self.here += 1
            return self.node("Prim", start, sort="paren", body=self.stmts_until(")"))
        if kind in ("KNOWN", "ORD", "CHR"):
            self.here += 1
            self.need("(")
            arg = self.desig() if kind == "KNOWN" else self.expr()
            self.need(")")
            return self.node("Prim", start, sort=kind, arg=arg)
        raise NotExpected()

    def desig(self):
        start, name, selectors = self.here, self.name(), []
        while self.at(".", "["):
            first = self.here
            self.here += 1
            if self.tokens[first].kind == ".":
                selectors.append(self.node("Selector", first, sort="field", name=self.name()))
            else:
                exprs = self.listed(self.expr, ",")
                self.need("]")
                selectors.append(self.node("Selector", first, sort="index", exprs=exprs))
        return self.node("Desig", start, name=name, selectors=selectors)


def parse(tokens, source):
    """The first token that fits no phrase is told, where it is not behind the one that opens too many phrases."""
    depth, deep = 0, None
    for index, token in enumerate(tokens):
        depth += (token.kind in OPENERS) - (token.kind in CLOSERS)
        if depth > DEEPEST:
            deep = index
            break
    parser = Parser(tokens if deep is None else tokens[:deep + 1])
    try:
        return parser.module()
    except NotExpected:
        if deep is not None and parser.here > deep:
            raise SourceFault("TooDeep", tokens[deep].start)
        raise SourceFault("Unexpected", tokens[parser.here].start if parser.here < len(tokens) else len(source))
