"""The rules on names and types. Of all rules that are broken, the one of the node that ends first is told, and at one node the first of FAULTS.

The type of a node is None where it is not known: where a rule is broken at or below it, or a name in use there is bad (its declaration breaks a
rule). Such a type breaks no further rule. What a node says is kept in it for the meaning: its type, the variable of a designator, ranges of labels.
"""
import operator

from scan import LARGEST, SMALLEST, SourceFault, place

LIMIT = 1048576         # cells of a type, a routine, a run
NESTED = 8              # procedures inside each other
# In the order in which one of several at a node is told.
FAULTS = """Undeclared Redeclared NameMismatch NotType NotConst NotVariable NotProcedure NotTest TypeMismatch ArgCount NotDesignator ModeType
IndexType NotArray NotRecord NoField ConstRange LabelTwice ReturnForm JumpOut NestedProcedure BadWrite BadRead TooLarge""".split()
OPS = {"+": operator.add, "-": operator.sub, "*": operator.mul, "DIV": operator.floordiv, "MOD": operator.mod}
RANK = {name: rank for rank, name in enumerate(FAULTS)}


class Type:
    """kind: int, char, bool, enum, subrange, array or record; fields: of each name its offset and type."""
    def __init__(self, kind, low=0, high=0, base=None, cells=1, index=None, elem=None, fields=None):
        self.kind, self.low, self.high, self.cells = kind, low, high, cells
        self.base = base or self
        self.index, self.elem, self.fields = index, elem, fields
        self.simple = kind not in ("array", "record")


INT, CHAR, BOOL = Type("int", SMALLEST, LARGEST), Type("char", 0, 255), Type("bool", 0, 1)


def compatible(one, other):
    return one.base is other.base if one.simple and other.simple else one is other


class Entry:
    """What a name is from a token on: const (type, value), type (type), var (type, level, slot, by_place), proc (proc) or bad."""
    def __init__(self, sort, since, **parts):
        self.sort, self.since = sort, since
        self.__dict__.update(parts)


class Scope:
    """leaves: of each name the place in the block that declares it first."""
    def __init__(self, parent, level):
        self.parent, self.level, self.names, self.leaves = parent, level, {}, {}

    def find(self, name, at):
        scope = self
        while scope:
            entry = scope.names.get(name)
            if entry and entry.since <= at:
                return entry
            scope = scope.parent
        return None


class Routine:
    """A procedure, or the module body at level 0; params: of each its mode, type and slot; bad: its heading breaks a rule, or it is nested too
    deep."""
    def __init__(self, level, line):
        self.level, self.line = level, line
        self.params, self.result, self.bad = [], None, False
        self.declared, self.slots, self.body = 0, 0, None
        self.has_return, self.is_made = False, False


def sole(phrase):
    """The Prim that an Expr or Simple is without sign, operators or NOT; else nothing."""
    simple = phrase.left if phrase.kind == "Expr" else phrase
    if phrase.kind == "Expr" and phrase.op or simple.sign or simple.rest or simple.head.rest or simple.head.head.negated:
        return None
    return simple.head.head.prim


def sole_desig(phrase):
    """The Desig of a variable that an Expr or Simple is; else nothing."""
    prim = sole(phrase)
    return prim.desig if prim and prim.sort == "desig" and prim.args is None and prim.desig.is_var else None


class Checker:
    def __init__(self, tokens, source):
        self.tokens, self.source, self.broken = tokens, source, []
        self.bad_uses = 0           # uses of bad names so far
        self.jump = False           # inside a test, a FORALL or a COMMIT, where RETURN must not stand
        self.constant = False       # at or below a place that must be constant
        self.globals = []

    def fault(self, node, name):
        self.broken.append((node.number, RANK[name], name, node.first))

    def line(self, node):
        return place(self.source, self.tokens[node.first].start)[0]

    def module(self, module):
        """The module body as a routine; its first slot is how much of the input is read."""
        if module.name.text != module.end.text:
            self.fault(module.end, "NameMismatch")
        main = Routine(0, self.line(module))
        main.slots = 1
        self.scope, self.routine = Scope(self.outermost(), 0), main
        for decl in module.block.decls:
            self.note_names(decl)
        self.block(module.block)
        if self.broken:
            _, _, name, token = min(self.broken)
            raise SourceFault(name, self.tokens[token].start)
        return main

    def outermost(self):
        scope = Scope(None, -1)
        scope.names = {b"INTEGER": Entry("type", 0, type=INT), b"CHAR": Entry("type", 0, type=CHAR), b"BOOLEAN": Entry("type", 0, type=BOOL),
                       b"TRUE": Entry("const", 0, type=BOOL, value=1), b"FALSE": Entry("const", 0, type=BOOL, value=0)}
        return scope

    # -- blocks

    def note(self, leaf):
        """Of two declarations in a block the first in the text counts."""
        if leaf.text in self.scope.leaves:
            self.fault(leaf, "Redeclared")
        else:
            self.scope.leaves[leaf.text] = leaf

    def note_values(self, type_node):
        """The values of enumerations in a type are names of the block."""
        for plain in type_node.indexes + [type_node.plain]:
            if plain.sort == "enum":
                for leaf in plain.names.names:
                    self.note(leaf)
            elif plain.sort == "record":
                for fields in plain.lists:
                    if fields.names:
                        self.note_values(fields.type)

    def declare(self, leaf, entry):
        if self.scope.leaves.get(leaf.text) is leaf:
            self.scope.names[leaf.text] = entry

    def variable(self, leaf, type, since, mode=None):
        """A variable, or a parameter of this mode; a MIX parameter of a simple type has a slot more, for a value that is given."""
        routine, by_place = self.routine, mode in ("VAR", "MIX")
        if type is None:
            self.declare(leaf, Entry("bad", since))
            return
        cells = 1 if by_place else type.cells
        routine.declared += cells
        if routine.declared > LIMIT:
            self.fault(leaf, "TooLarge")
        self.declare(leaf, Entry("var", since, type=type, level=routine.level, slot=routine.slots, by_place=by_place))
        if mode:
            routine.params.append((mode, type, routine.slots))
        elif routine.level == 0:
            self.globals.append((leaf.text, routine.slots, type.cells))
        routine.slots += cells + (1 if mode == "MIX" and type.simple else 0)

    def block(self, block):
        """Its names are noted already."""
        for decl in block.decls:
            if decl.sort == "PROCEDURE":
                self.heading(decl)
            else:
                self.items(decl)
        for decl in block.decls:
            if decl.sort == "PROCEDURE":
                self.inside(decl, lambda: self.block(decl.block))
        self.jump = False
        if block.body:
            self.stmts(block.body)
        self.routine.body = block.body

    def note_names(self, decl):
        """A procedure may be called in the whole block."""
        if decl.sort == "PROCEDURE":
            self.note(decl.name)
            decl.routine = Routine(self.scope.level + 1, self.line(decl))
            decl.scope = Scope(self.scope, decl.routine.level)
            self.declare(decl.name, Entry("proc", 0, proc=decl.routine))
            return
        for names, what, _ in decl.items:
            for leaf in names.names if decl.sort == "VAR" else [names]:
                self.note(leaf)
            if decl.sort != "CONST":
                self.note_values(what)

    def items(self, decl):
        for names, what, end in decl.items:
            if decl.sort == "CONST":
                type, value = self.const(what)
                self.declare(names, Entry("bad", end) if value is None else Entry("const", end, type=type, value=value))
                continue
            type = self.type(what)
            if decl.sort == "TYPE":
                self.declare(names, Entry("type", end, type=type) if type else Entry("bad", end))
            else:
                for leaf in names.names:
                    self.variable(leaf, type, end)

    def inside(self, decl, check):
        keep = self.scope, self.routine
        self.scope, self.routine = decl.scope, decl.routine
        check()
        self.scope, self.routine = keep

    def heading(self, decl):
        if decl.routine.level > NESTED:
            self.fault(decl, "NestedProcedure")
            decl.routine.bad = True
        if decl.name.text != decl.end.text:
            self.fault(decl.end, "NameMismatch")
        self.inside(decl, lambda: self.parameters(decl))

    def parameters(self, decl):
        """The block begins here: the procedures inside it are visible in the types."""
        before = len(self.broken)
        for formal in decl.formals:
            for leaf in formal.names.names:
                self.note(leaf)
        decl.routine.bad |= len(self.broken) > before
        for inner in decl.block.decls:
            self.note_names(inner)
        before = len(self.broken)
        self.formals(decl)
        decl.routine.bad |= len(self.broken) > before

    def formals(self, decl):
        for formal in decl.formals:
            type = self.type_name(formal.type)
            for leaf in formal.names.names:
                self.variable(leaf, type, formal.type.first + 1, formal.mode)
            decl.routine.bad |= type is None
        if decl.result:
            type = decl.routine.result = self.type_name(decl.result)
            if type and not type.simple:
                self.fault(decl.result, "TypeMismatch")
            decl.routine.bad |= type is None

    # -- names and types

    def look(self, leaf):
        entry = self.scope.find(leaf.text, leaf.first)
        if entry is None:
            self.fault(leaf, "Undeclared")
        elif entry.sort == "bad" or entry.sort == "proc" and entry.proc.bad:
            self.bad_uses += 1
        return None if entry is None or entry.sort == "bad" else entry

    def live(self, leaf):
        """The entry of a name, but of a procedure with a bad heading only at a constant place."""
        entry = self.look(leaf)
        return None if entry and entry.sort == "proc" and entry.proc.bad and not self.constant else entry

    def type_name(self, leaf):
        entry = self.look(leaf)
        if entry and entry.sort != "type":
            self.fault(leaf, "NotType")
            return None
        return entry.type if entry else None

    def type(self, node):
        before = len(self.broken)
        indexes = [(plain, self.plain(plain)) for plain in node.indexes]
        type = self.plain(node.plain)
        for plain, index in indexes:
            if index and (index is INT or not index.simple):
                self.fault(plain, "IndexType")
        if len(self.broken) > before or type is None or any(index is None for _, index in indexes):
            return None
        for _, index in reversed(indexes):
            count = index.high - index.low + 1
            if count > LIMIT or count * type.cells > LIMIT:
                self.fault(node, "TooLarge")
                return None
            type = Type("array", cells=count * type.cells, index=index, elem=type)
        if type.cells > LIMIT:
            self.fault(node, "TooLarge")
            return None
        return type

    def plain(self, plain):
        if plain.sort == "name":
            return self.type_name(plain.name)
        if plain.sort == "enum":
            type = Type("enum", 0, len(plain.names.names) - 1)
            for value, leaf in enumerate(plain.names.names):
                self.declare(leaf, Entry("const", plain.close, type=type, value=value))
            return type
        return self.subrange(plain) if plain.sort == "subrange" else self.record(plain)

    def subrange(self, plain):
        (one, low), (other, high) = self.const(plain.low), self.const(plain.high)
        if one and other and one.base is not other.base:
            self.fault(plain, "TypeMismatch")
            return None
        if low is None or high is None:
            return None
        if low > high:
            self.fault(plain, "ConstRange")
            return None
        return Type("subrange", low, high, one.base)

    def record(self, plain):
        fields, seen, offset, known = {}, set(), 0, True
        for part in plain.lists:
            if not part.names:
                continue
            for leaf in part.names.names:
                if leaf.text in seen:
                    self.fault(leaf, "Redeclared")
                seen.add(leaf.text)
            type = self.type(part.type)
            if type is None:
                known = False
                continue
            for leaf in part.names.names:
                fields[leaf.text] = offset, type
                offset += type.cells
        return Type("record", cells=offset, fields=fields) if known else None

    # -- expressions: each gives its type and, at a constant place, its value

    def const(self, expr):
        before, keep, self.constant = len(self.broken), self.constant, True
        type, value = self.expr(expr)
        self.constant = keep
        return type, (None if len(self.broken) > before else value)

    def value(self, expr):
        return self.expr(expr)[0]

    def judged(self, node, form, *parts):
        """What a form says, or nothing where at or below the node a rule is broken or a name is bad."""
        before = len(self.broken) + self.bad_uses
        type, value = form(node, *parts)
        if len(self.broken) + self.bad_uses > before:
            type = value = None
        node.type = type
        return type, value

    def expr(self, expr, is_item=False):
        """is_item: an item of WRITE, which may be a longer literal."""
        return self.judged(expr, self.expr_form, is_item)

    def expr_form(self, expr, is_item):
        one, value = self.simple(expr.left, is_item and expr.op is None)
        if expr.op is None:
            return one, value
        other, _ = self.simple(expr.right, False)
        if self.constant:
            self.fault(expr, "NotConst")
        if one and other and (not compatible(one, other) or (not one.simple and expr.op != "=")):
            self.fault(expr, "TypeMismatch")
        return BOOL, None

    def simple(self, simple, is_item):
        return self.judged(simple, self.chain, is_item, simple.sign, self.term)

    def term(self, term, is_item):
        return self.judged(term, self.chain, is_item, None, self.factor)

    def chain(self, node, is_item, sign, operand):
        """The first operator says whether the chain is of numbers or of tests; the first operand belongs to it, each other one to the operator
        before it, so that in `1 + 2 OR 3` the 3 is refused as no test."""
        if not node.rest and not sign:
            return operand(node.head, is_item)
        numbers = node.rest[0][0] not in ("OR", "AND") if node.rest else True
        total = None
        for index, (op, part) in enumerate([(None, node.head)] + node.rest):
            type, value = operand(part, False)
            number = op not in ("OR", "AND") if op else numbers
            self.operand_faults(part, type, number, numbers, sign and index == 0)
            if not (self.constant and numbers and type and type.base is INT and number):
                total = None
            elif index == 0:
                total = self.folded(node, 0, "-", value) if sign == "-" and value is not None else value
            else:
                total = None if total is None or value is None else self.folded(node, total, op, value)
        if self.constant and not (numbers and all(op not in ("OR", "AND") for op, _ in node.rest)):
            self.fault(node, "NotConst")
        return (INT if numbers else BOOL), total

    def operand_faults(self, part, type, number, numbers, signed):
        if number != numbers:
            self.fault(part, "TypeMismatch")
        if type and number and type.base is not INT:
            self.fault(part, "TypeMismatch")
        elif type and not number and type.base is not BOOL:
            self.fault(part, "NotTest")
        if signed and type and type.base is not INT:
            self.fault(part, "TypeMismatch")

    def folded(self, node, left, op, right):
        result = None if op in ("DIV", "MOD") and right == 0 else OPS[op](left, right)
        if result is None or not SMALLEST <= result <= LARGEST:
            self.fault(node, "ConstRange")
            return None
        return result

    def factor(self, factor, is_item):
        return self.judged(factor, self.factor_form, is_item)

    def factor_form(self, factor, is_item):
        if not factor.negated:
            return self.prim(factor.prim, is_item)
        keep, self.jump = self.jump, True
        type, _ = self.prim(factor.prim, False)
        self.jump = keep
        if type and type.base is not BOOL:
            self.fault(factor.prim, "NotTest")
        if self.constant:
            self.fault(factor, "NotConst")
        return BOOL, None

    def prim(self, prim, is_item):
        if prim.sort == "literal":
            return self.judged(prim, self.prim_literal, is_item)
        return self.judged(prim, getattr(self, "prim_" + prim.sort))

    def prim_number(self, prim):
        return INT, int(prim.text)

    def prim_literal(self, prim, is_item):
        if len(prim.text) == 3:
            return CHAR, prim.text[1]
        if not is_item:
            if self.constant:
                self.fault(prim, "NotConst")
            self.fault(prim, "TypeMismatch")
        return None, None

    def prim_paren(self, prim):
        """One expression in parentheses, or statements as a test."""
        list_ = prim.body.list
        if len(list_) == 1 and list_[0].sort == "expr":
            prim.inner = list_[0].expr
            type, value = self.expr(prim.inner)
            if type and not type.simple:
                self.fault(prim, "TypeMismatch")
            return type, value
        prim.inner = None
        self.without_return(prim.body)
        if self.constant:
            self.fault(prim, "NotConst")
        return BOOL, None

    def prim_KNOWN(self, prim):
        type = self.desig(prim.arg, is_place=True)
        if type and not type.simple:
            self.fault(prim, "TypeMismatch")
        if self.constant:
            self.fault(prim, "NotConst")
        return BOOL, None

    def prim_ORD(self, prim):
        type, value = self.expr(prim.arg)
        if type and not type.simple:
            self.fault(prim, "TypeMismatch")
        return INT, value

    def prim_CHR(self, prim):
        type, value = self.expr(prim.arg)
        if type and type.base is not INT:
            self.fault(prim, "TypeMismatch")
        elif self.constant and value is not None and not 0 <= value <= 255:
            self.fault(prim, "ConstRange")
        return CHAR, value

    def prim_desig(self, prim):
        if prim.args is not None:
            return self.call(prim)
        type = self.desig(prim.desig)
        return type, prim.desig.value

    # -- calls and designators

    def call(self, prim):
        desig = prim.desig
        entry = self.live(desig.name)
        is_var = entry is not None and entry.sort == "var"
        self.selected(desig, entry.type if is_var else None)
        if desig.selectors and entry and not is_var:
            self.fault(desig, "NotVariable")
        desig.is_var, desig.value, desig.entry = False, None, entry
        if self.constant and entry and (desig.selectors or entry.sort != "const"):
            self.fault(desig, "NotConst")
        if entry and (entry.sort != "proc" or desig.selectors):
            self.fault(desig, "NotProcedure")
            entry = None
        types = [self.value(arg) for arg in prim.args]
        if self.constant:
            self.fault(prim, "NotConst")
        if not entry or entry.proc.bad:
            return None, None
        routine = prim.proc = entry.proc
        if len(types) != len(routine.params):
            self.fault(prim, "ArgCount")
        for arg, type, (mode, wanted, _) in zip(prim.args, types, routine.params):
            self.arg_faults(arg, type, mode, wanted)
        return routine.result or BOOL, None

    def arg_faults(self, arg, type, mode, wanted):
        is_var = sole_desig(arg) is not None
        if mode == "VAR" and not is_var:
            self.fault(arg, "NotDesignator")
        elif mode != "value" and is_var:
            if type and type is not wanted:
                self.fault(arg, "ModeType")
        elif type and not compatible(type, wanted):
            self.fault(arg, "TypeMismatch")

    def selected(self, desig, type):
        """The type of the part that the selectors of a designator select."""
        for selector in desig.selectors:
            type = self.field(selector, type) if selector.sort == "field" else self.element(selector, type)
        return type

    def field(self, selector, type):
        if type is None:
            return None
        if type.kind != "record":
            self.fault(selector, "NotRecord")
        elif selector.name.text not in type.fields:
            self.fault(selector, "NoField")
        else:
            selector.offset, type = type.fields[selector.name.text]
            return type
        return None

    def element(self, selector, type):
        selector.indexes = []
        for expr in selector.exprs:
            given = self.value(expr)
            if type is None:
                continue
            if type.kind != "array":
                self.fault(selector, "NotArray")
                type = None
                continue
            if given and given.base is not type.index.base:
                self.fault(expr, "TypeMismatch")
            selector.indexes.append((expr, type.index, type.elem.cells))
            type = type.elem
        return type

    def desig(self, desig, is_place=False):
        """The type of a designator: of a variable where a place is wanted, else of a value."""
        return self.judged(desig, self.desig_form, is_place)[0]

    def desig_form(self, desig, is_place):
        entry = self.live(desig.name)
        desig.is_var, desig.value, desig.entry = entry is not None and entry.sort == "var", None, entry
        if desig.selectors:
            type = self.selected(desig, entry.type if desig.is_var else None)
            if self.constant and entry:
                self.fault(desig, "NotConst")
            if entry and not desig.is_var:
                self.fault(desig, "NotVariable")
            return type, None
        if entry is None:
            return None, None
        if is_place:
            return self.place_form(desig, entry), None
        return self.value_form(desig, entry), None

    def place_form(self, desig, entry):
        if self.constant and entry.sort != "const":
            self.fault(desig, "NotConst")
        if desig.is_var:
            return entry.type
        self.fault(desig, "NotVariable")
        return None

    def value_form(self, desig, entry):
        """A procedure without parameters and result is a test."""
        if entry.sort == "const":
            desig.value = entry.value
            return entry.type
        if self.constant:
            self.fault(desig, "NotConst")
        elif desig.is_var:
            return entry.type
        elif entry.sort == "proc" and not entry.proc.bad and entry.proc.result is None and not entry.proc.params:
            return BOOL
        elif entry.sort != "proc" or not entry.proc.bad:
            self.fault(desig, "NotVariable")
        return None

    # -- statements

    def stmts(self, stmts):
        for stmt in stmts.list:
            if stmt.sort != "empty":
                stmt.line = self.line(stmt)
                getattr(self, "stmt_" + stmt.sort)(stmt)

    def without_return(self, *parts):
        keep, self.jump = self.jump, True
        for part in parts:
            self.stmts(part)
        self.jump = keep

    def test(self, expr):
        type = self.value(expr)
        if type and type.base is not BOOL:
            self.fault(expr, "NotTest")

    def stmt_expr(self, stmt):
        self.test(stmt.expr)

    def stmt_assign(self, stmt):
        one, other = self.desig(stmt.left, is_place=True), self.value(stmt.right)
        if one and other and not compatible(one, other):
            self.fault(stmt, "TypeMismatch")

    def stmt_IF(self, stmt):
        for cond, body in stmt.arms:
            self.test(cond)
            self.stmts(body)
        if stmt.other:
            self.stmts(stmt.other)

    def stmt_WHILE(self, stmt):
        self.test(stmt.cond)
        self.stmts(stmt.body)

    def stmt_REPEAT(self, stmt):
        self.stmts(stmt.body)
        self.test(stmt.cond)

    def stmt_FOR(self, stmt):
        stmt.entry = entry = self.live(stmt.name)
        type = entry.type if entry and entry.sort == "var" else None
        if entry and entry.sort != "var":
            self.fault(stmt.name, "NotVariable")
        bounds = self.value(stmt.low), self.value(stmt.high)
        stmt.step = 1
        if stmt.by:
            by, stmt.step = self.const(stmt.by)
            if by and by.base is not INT:
                self.fault(stmt.by, "TypeMismatch")
            elif stmt.step == 0:
                self.fault(stmt.by, "ConstRange")
        self.stmts(stmt.body)
        if type and (not type.simple or any(bound and bound.base is not type.base for bound in bounds)):
            self.fault(stmt, "TypeMismatch")

    stmt_SOME = stmt_FOR

    def stmt_CASE(self, stmt):
        type, seen = self.value(stmt.value), []
        for arm in stmt.arms:
            found = [self.label(label, type, seen) for label in arm.labels]
            arm.ranges = [bounds for bounds in found if bounds]
            if arm.body:
                self.stmts(arm.body)
        if stmt.other:
            self.stmts(stmt.other)
        if type and not type.simple:
            self.fault(stmt, "TypeMismatch")

    def label(self, label, type, seen):
        """The range of a label, which must have no value that was seen before."""
        one, low = self.const(label.low)
        other, high = self.const(label.high) if label.high else (one, low)
        if any(given and type and type.simple and given.base is not type.base for given in (one, other)) or \
                one and other and one.base is not other.base:
            self.fault(label, "TypeMismatch")
        if low is None or high is None:
            return None
        if low > high:
            self.fault(label, "ConstRange")
        if any(low <= last and first <= high for first, last in seen):
            self.fault(label, "LabelTwice")
        seen.append((low, high))
        return low, high

    def stmt_EITHER(self, stmt):
        for branch in stmt.branches:
            self.stmts(branch)

    def stmt_FORALL(self, stmt):
        self.without_return(stmt.part, stmt.body)

    def stmt_COMMIT(self, stmt):
        self.without_return(stmt.body)

    def stmt_RETURN(self, stmt):
        routine = self.routine
        routine.has_return = True
        type = self.value(stmt.expr) if stmt.expr else None
        has_result = routine.level > 0 and routine.result is not None
        if has_result and type and type.base is not routine.result.base:
            self.fault(stmt, "TypeMismatch")
        if (stmt.expr is not None) != has_result and not routine.bad:
            self.fault(stmt, "ReturnForm")
        if self.jump:
            self.fault(stmt, "JumpOut")
        stmt.result = routine.result

    def stmt_READ(self, stmt):
        for desig in stmt.desigs:
            type = self.desig(desig, is_place=True)
            if type and type.base is not INT and type.base is not CHAR:
                self.fault(desig, "BadRead")

    def stmt_WRITE(self, stmt):
        for item in stmt.items:
            type, _ = self.expr(item, is_item=True)
            if type and type.base not in (INT, CHAR, BOOL):
                self.fault(item, "BadWrite")

    stmt_WRITELN = stmt_WRITE
