"""The meaning of expressions, tests, designators and calls, made once for each phrase: Expressions(routine).value(node) and so on are functions
from a store."""
import operator

from check import BOOL, CHAR, INT, LIMIT, OPS, sole, sole_desig
from meaning import Fault, Returned, emit, first, in_range, put, sequence, visit
from scan import LARGEST, SMALLEST

DEEPEST = 10000         # calls inside each other
RELATIONS = {"=": operator.eq, "#": operator.ne, "<": operator.lt, "<=": operator.le, ">": operator.gt, ">=": operator.ge}


class Expressions:
    def __init__(self, routine):
        self.routine = routine

    # -- designators

    def var(self, entry):
        """The frame and slot of the first cell of a variable."""
        up, slot, by_place, is_global = self.routine.level - entry.level, entry.slot, entry.by_place, entry.level == 0

        def run(store):
            visit(2)
            frame = 0 if is_global else len(store) - 1
            for _ in range(0 if is_global else up):
                frame = store[frame][1]
            return store[frame][2][slot] if by_place else (frame, slot)
        return run

    def place(self, node):
        """The store, frame and slot of a designator, or of an expression that is one."""
        desig = sole_desig(node) if node.kind == "Expr" else node
        root, steps = self.var(desig.entry), []
        for selector in desig.selectors:
            if selector.sort == "field":
                steps.append((None, None, selector.offset))
            else:
                steps += [(self.value(expr), index, cells) for expr, index, cells in selector.indexes]

        def run(store):
            frame, slot = root(store)
            for value, index, cells in steps:
                visit(2)
                if value is None:
                    slot += cells
                    continue
                got = value(store)
                if got is None:
                    return None
                store, number = got
                if not index.low <= number <= index.high:
                    raise Fault("Index")
                slot += (number - index.low) * cells
            return store, frame, slot
        return run

    # -- what an expression is, when its layers with one operand are taken away

    def form(self, node):
        if node.kind == "Expr":
            return ("relation", node) if node.op else self.form(node.left)
        if node.kind == "Simple":
            return self.chain_form(node, "OR", node.sign)
        if node.kind == "Term":
            return self.chain_form(node, "AND", None)
        if node.kind == "Factor":
            return ("not", node.prim) if node.negated else self.form(node.prim)
        if node.sort == "paren":
            return ("paren", node.inner) if node.inner else ("stmts", node.body)
        return self.desig_form(node) if node.sort == "desig" else (node.sort, node)

    def chain_form(self, node, joint, sign):
        if node.rest and node.rest[0][0] == joint:
            return joint, [node.head] + [part for _, part in node.rest]
        if node.rest or sign == "-":
            return "chain", node
        return ("paren", node.head) if sign else self.form(node.head)

    def desig_form(self, prim):
        desig = prim.desig
        if prim.args is not None:
            return ("action" if prim.proc.result is None else "function"), prim
        if desig.is_var:
            return "var", desig
        if desig.value is not None:
            return "const", desig.value
        prim.proc, prim.args = desig.entry.proc, []
        return "action", prim

    def is_var(self, node):
        return self.form(node)[0] == "var"

    def has_value(self, node):
        """Whether it is computed; else it is a test, as an equation with a variable is, which may give the variable its value."""
        sort, part = self.form(node)
        if sort == "paren":
            return self.has_value(part)
        if sort == "relation":
            return part.op != "=" or part.left.type.simple and not self.is_var(part.left) and not self.is_var(part.right)
        return sort not in ("OR", "AND", "not", "action", "stmts")

    # -- values

    def value(self, node):
        sort, part = self.form(node)
        if sort == "paren":
            return self.value(part)
        if not self.has_value(node):
            return self.truth(node)
        return getattr(self, "value_" + sort)(part)

    def truth(self, node):
        """A test as a value; where it fails, nothing of it is left."""
        test = self.test(node)

        def run(store):
            visit(2)
            one = first(test(store))
            return (store, 0) if one is None else (one, 1)
        return run

    def value_number(self, prim):
        return self.value_const(int(prim.text))

    def value_literal(self, prim):
        return self.value_const(prim.text[1])

    def value_const(self, value):
        def run(store):
            visit(2)
            return store, value
        return run

    def value_var(self, desig):
        def read(store, frame, slot):
            value = store[frame][2][slot]
            if value is None:
                raise Fault("Unknown")
            return store, value
        return self.at_place(desig, read)

    def value_KNOWN(self, prim):
        return self.at_place(prim.arg, lambda store, frame, slot: (store, int(store[frame][2][slot] is not None)))

    def at_place(self, desig, look):
        place = self.place(desig)

        def run(store):
            visit(2)
            got = place(store)
            return None if got is None else look(*got)
        return run

    def value_ORD(self, prim):
        return self.value(prim.arg)

    def value_CHR(self, prim):
        value = self.value(prim.arg)

        def run(store):
            visit(2)
            got = value(store)
            if got is not None:
                in_range(got[1], CHAR)
            return got
        return run

    def value_chain(self, node):
        negated = node.kind == "Simple" and node.sign == "-"
        head, rest = self.value(node.head), [(op, self.value(part)) for op, part in node.rest]

        def run(store):
            visit(2)
            got = head(store)
            if got is None:
                return None
            store, total = got
            if negated:
                total = in_word(-total)
            for op, value in rest:
                got = value(store)
                if got is None:
                    return None
                store, right = got
                if op in ("DIV", "MOD") and right == 0:
                    raise Fault("ZeroDivide")
                total = in_word(OPS[op](total, right))
            return store, total
        return run

    def value_relation(self, expr):
        both, compare = in_order(self.value(expr.left), self.value(expr.right)), RELATIONS[expr.op]

        def run(store):
            visit(2)
            got = both(store)
            if got is None:
                return None
            store, (_, left), (_, right) = got
            return store, int(compare(left, right))
        return run

    # -- tests

    def test(self, node):
        sort, part = self.form(node)
        if sort == "paren":
            return self.test(part)
        inner = self.value_test(node) if self.has_value(node) else getattr(self, "test_" + sort)(part)

        def run(store):
            visit()
            for one in inner(store):
                visit()
                yield one
        return run

    def value_test(self, node):
        value = self.value(node)

        def run(store):
            got = value(store)
            return () if got is None or got[1] == 0 else (got[0],)
        return run

    def test_relation(self, expr):
        """An equation with a variable, or with two."""
        left, right = self.is_var(expr.left), self.is_var(expr.right)
        return self.unify(expr) if left and right else self.bind(expr, left)

    def unify(self, expr):
        """Cell by cell: where one side is unknown it takes the cell of the other."""
        both = in_order(self.place(self.form(expr.left)[1]), self.place(self.form(expr.right)[1]))
        left_type, right_type = expr.left.type, expr.right.type

        def run(store):
            got = both(store)
            if got is None:
                return ()
            store, (_, left, left_slot), (_, right, right_slot) = got
            for cell in range(left_type.cells):
                one, other = store[left][2][left_slot + cell], store[right][2][right_slot + cell]
                if one is None and other is None:
                    raise Fault("Unknown")
                if one is None:
                    if left_type.simple:
                        in_range(other, left_type)
                    store = put(store, left, left_slot + cell, other)
                elif other is None:
                    if left_type.simple:
                        in_range(one, right_type)
                    store = put(store, right, right_slot + cell, one)
                elif one != other:
                    return ()
            return (store,)
        return run

    def bind(self, expr, var_is_left):
        desig, other = (expr.left, expr.right) if var_is_left else (expr.right, expr.left)
        place, value = self.place(self.form(desig)[1]), self.value(other)
        both = in_order(place, value) if var_is_left else in_order(value, place)

        def run(store):
            got = both(store)
            if got is None:
                return ()
            store, (_, frame, slot), (_, wanted) = got if var_is_left else (got[0], got[2], got[1])
            found = store[frame][2][slot]
            if found is None:
                in_range(wanted, desig.type)
                return (put(store, frame, slot, wanted),)
            return (store,) if found == wanted else ()
        return run

    def test_OR(self, parts):
        """Of the parts before the last, the first alternative is kept."""
        tests = [self.test(part) for part in parts]

        def run(store):
            for test in tests[:-1]:
                one = first(test(store))
                if one is not None:
                    yield one
                    return
            yield from tests[-1](store)
        return run

    def test_AND(self, parts):
        return sequence([self.test(part) for part in parts])

    def test_not(self, prim):
        test = self.test(prim)
        return lambda store: (store,) if first(test(store)) is None else ()

    def test_stmts(self, body):
        return self.stmts(body)

    # -- calls

    def arg(self, expr, mode, type, slot):
        """How an argument is passed: as a place, a value (of MIX: in a cell of its own), or a copy of cells."""
        desig = sole_desig(expr)
        if mode != "value" and desig:
            return "place", self.place(desig), type, slot
        if mode == "MIX" or type.simple:
            return ("mix" if mode == "MIX" else "value"), self.value(expr), type, slot
        return "copy", self.place(desig), type, slot

    def enter(self, prim):
        """The store with the frame of a call, or nothing where an argument fails."""
        routine = prim.proc
        args = [self.arg(expr, *param) for expr, param in zip(prim.args, routine.params)]
        up = self.routine.level + 1 - routine.level

        def run(store):
            given = []
            for sort, evaluate, type, slot in args:
                visit(2)
                got = evaluate(store)
                if got is None:
                    return None
                store = got[0]
                if sort in ("value", "mix"):
                    in_range(got[1], type)
                given.append((sort, got, type, slot))
            if len(store) >= DEEPEST:
                raise Fault("DepthFull")
            total = store[-1][3] + routine.declared
            if total > LIMIT:
                raise Fault("CellsFull")
            link = len(store) - 1
            for _ in range(up):
                link = store[link][1]
            return store + ((routine, link, cells_of(routine, store, given), total),)
        return run

    def body_of(self, routine):
        """The function of a routine's body, made when it is first wanted; routines may call each other."""
        if not routine.is_made:
            routine.is_made = True
            routine.run = type(self)(routine).body()
        return routine

    def test_action(self, prim):
        enter, routine = self.enter(prim), self.body_of(prim.proc)

        def run(store):
            store = enter(store)
            if store is None:
                return
            for one in routine.run(store):
                yield (one.store if type(one) is Returned else one)[:-1]
        return run

    def value_function(self, prim):
        """The first alternative of a function is kept."""
        enter, routine = self.enter(prim), self.body_of(prim.proc)

        def run(store):
            visit(2)
            store = enter(store)
            if store is None:
                return None
            one = first(routine.run(store))
            if one is None:
                return None
            if type(one) is not Returned:
                raise Fault("NoReturn", routine.line)
            return one.store[:-1], one.value
        return run

    def item(self, expr):
        """An item of WRITE: a literal of another length than one is printed as it stands."""
        prim = sole(expr)
        if prim and prim.sort == "literal" and len(prim.text) != 3:
            return lambda store: (emit(prim.text[1:-1]), store)[1]
        value, base = self.value(expr), expr.type.base

        def run(store):
            got = value(store)
            if got is None:
                return None
            emit(printed(got[1], base))
            return got[0]
        return run


def in_order(one, other):
    """Both functions, the second on the store of the first: the last store and what each gives, or nothing."""
    def run(store):
        left = one(store)
        if left is None:
            return None
        right = other(left[0])
        return None if right is None else (right[0], left, right)
    return run


def in_word(value):
    if not SMALLEST <= value <= LARGEST:
        raise Fault("Overflow")
    return value


def cells_of(routine, store, given):
    """The cells of a new frame; what was not given is unknown."""
    cells, frame = [None] * routine.slots, len(store)
    for sort, got, type, slot in given:
        if sort == "place":
            cells[slot] = got[1:]
        elif sort == "value":
            cells[slot] = got[1]
        elif sort == "mix":
            cells[slot], cells[slot + 1] = (frame, slot + 1), got[1]
        else:
            cells[slot:slot + type.cells] = store[got[1]][2][got[2]:got[2] + type.cells]
    return tuple(cells)


def printed(value, base):
    if base is INT:
        return str(value).encode()
    if base is CHAR:
        return bytes([value])
    assert base is BOOL
    return b"TRUE" if value else b"FALSE"
