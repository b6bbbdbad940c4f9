"""The meaning of statements, and of bodies; of expressions: expressions.py."""
from check import CHAR
from expressions import Expressions, in_order
from meaning import Fault, Returned, Run, carried, chained, emit, first, in_range, put, sequence, visit
from scan import BLANKS, DIGITS, LARGEST, SMALLEST


class Statements(Expressions):
    def body(self):
        inner = self.stmts(self.routine.body) if self.routine.body else sequence([])

        def run(store):
            visit()
            for one in inner(store):
                visit()
                yield one
        return run

    def stmts(self, stmts):
        """READ and WRITE are statements for each item; a form of one alternative at most gives it or nothing, the others all of theirs."""
        parts = []
        for stmt in stmts.list:
            if stmt.sort in ("assign", "COMMIT", "RETURN", "READ", "WRITE", "WRITELN"):
                parts += [self.single(form, stmt.line) for form in getattr(self, "stmt_" + stmt.sort)(stmt)]
            elif stmt.sort != "empty":
                parts.append(self.several(getattr(self, "stmt_" + stmt.sort)(stmt), stmt.line))
        return sequence(parts)

    def single(self, form, line):
        def run(store):
            try:
                visit(2)
                one = form(store)
                return () if one is None else (one,)
            except Fault as fault:
                fault.line = fault.line or line
                raise
        return run

    def several(self, form, line):
        def run(store):
            try:
                visit()
                for one in form(store):
                    visit()
                    yield one
            except Fault as fault:
                fault.line = fault.line or line
                raise
        return run

    def stmt_expr(self, stmt):
        return self.test(stmt.expr)

    # -- statements with one alternative at most

    def stmt_assign(self, stmt):
        type, place = stmt.left.type, self.place(stmt.left)
        both = in_order(place, self.value(stmt.right) if type.simple else self.place(stmt.right))

        def run(store):
            got = both(store)
            if got is None:
                return None
            store, (_, frame, slot), right = got
            if type.simple:
                in_range(right[1], type)
                return put(store, frame, slot, right[1])
            _, other, other_slot = right
            return put(store, frame, slot, *store[other][2][other_slot:other_slot + type.cells])
        return [run]

    def stmt_COMMIT(self, stmt):
        body = self.stmts(stmt.body)
        return [lambda store: first(body(store))]

    def stmt_RETURN(self, stmt):
        if stmt.expr is None:
            return [lambda store: Returned(store, None)]
        value, type = self.value(stmt.expr), stmt.result

        def run(store):
            got = value(store)
            if got is None:
                return None
            in_range(got[1], type)
            return Returned(*got)
        return [run]

    def stmt_READ(self, stmt):
        return [self.read(desig) for desig in stmt.desigs]

    def read(self, desig):
        """Fails where the input has no such item; how much is read is a cell too, so that it is undone with the rest."""
        place, type = self.place(desig), desig.type

        def run(store):
            got = place(store)
            if got is None:
                return None
            store, frame, slot = got
            found = (read_char if type.base is CHAR else read_number)(Run.input, store[0][2][0])
            if found is None:
                return None
            value, behind = found
            in_range(value, type)
            return put(put(store, 0, 0, behind), frame, slot, value)
        return run

    def stmt_WRITE(self, stmt):
        return [self.item(expr) for expr in stmt.items]

    def stmt_WRITELN(self, stmt):
        return self.stmt_WRITE(stmt) + [lambda store: (emit(b"\n"), store)[1]]

    # -- choices

    def stmt_IF(self, stmt):
        """Of a condition the first alternative is kept."""
        arms = [(self.test(cond), self.stmts(body)) for cond, body in stmt.arms]
        other = self.stmts(stmt.other) if stmt.other else sequence([])

        def run(store):
            for cond, body in arms:
                visit()
                held = first(cond(store))
                if held is not None:
                    yield from visited(body(held))
                    return
            yield from other(store)
        return run

    def stmt_CASE(self, stmt):
        value, other = self.value(stmt.value), self.stmts(stmt.other) if stmt.other else None
        arms = [(arm.ranges, self.stmts(arm.body)) for arm in stmt.arms if arm.body]

        def run(store):
            got = value(store)
            if got is None:
                return
            store, number = got
            body = chosen(arms, number)
            if body:
                yield from visited(body(store))
            elif other is None:
                raise Fault("NoCase")
            else:
                yield from other(store)
        return run

    def stmt_EITHER(self, stmt):
        branches = [self.stmts(branch) for branch in stmt.branches]

        def run(store):
            for branch in branches:
                visit()
                yield from visited(branch(store))
        return run

    def stmt_FORALL(self, stmt):
        """The body is done once for each alternative of the first part, on what the bodies before it changed; it is skipped where it fails."""
        part, body = self.stmts(stmt.part), self.stmts(stmt.body)

        def run(store):
            changes = {}
            for one in part(store):
                before = carried(one, changes)
                behind = first(body(before))
                if behind is not None:
                    note_changes(before, behind, changes)
            yield carried(store, changes)
        return run

    # -- loops

    def stmt_WHILE(self, stmt):
        cond, body = self.test(stmt.cond), self.stmts(stmt.body)

        def turn(store, _):
            visit()
            held = first(cond(store))
            return (store, None) if held is None else (None, body(held))
        return lambda store: chained(store, turn)

    def stmt_REPEAT(self, stmt):
        cond, body = self.test(stmt.cond), self.stmts(stmt.body)

        def turn(store, at):
            held = first(cond(store)) if at > 1 else None
            if held is not None:
                return held, None
            visit()
            return None, body(store)
        return lambda store: chained(store, turn)

    def bounds(self, stmt):
        """The store, and the first and last number of a loop; and a function that gives its variable a number."""
        both, place, type = in_order(self.value(stmt.low), self.value(stmt.high)), self.var(stmt.entry), stmt.entry.type

        def assign(store, number):
            visit(3)
            in_range(number, type)
            return put(store, *place(store), number)
        return both, assign

    def stmt_FOR(self, stmt):
        (both, assign), body, step = self.bounds(stmt), self.stmts(stmt.body), stmt.step

        def run(store):
            got = both(store)
            if got is None:
                return ()
            store, (_, low), (_, high) = got
            turns = (high - low) // step + 1

            def turn(one, at):
                return (one, None) if at > turns else (None, body(assign(one, low + step * (at - 1))))
            return chained(store, turn)
        return run

    def stmt_SOME(self, stmt):
        (both, assign), body = self.bounds(stmt), self.stmts(stmt.body)

        def run(store):
            got = both(store)
            if got is None:
                return
            store, (_, low), (_, high) = got
            while low <= high:
                yield from body(assign(store, low))
                low += 1
        return run


def visited(alternatives):
    for one in alternatives:
        visit()
        yield one


def chosen(arms, number):
    for ranges, body in arms:
        for low, high in ranges:
            visit(2)
            if low <= number <= high:
                return body
        visit()
    return None


def note_changes(before, behind, changes):
    for frame, (old, new) in enumerate(zip(before, behind)):
        if old is not new:
            changes.update({(frame, slot): value for slot, value in enumerate(new[2]) if old[2][slot] != value})


def read_char(given, at):
    return (given[at], at + 1) if at < len(given) else None


def read_number(given, at):
    while at < len(given) and given[at] in BLANKS:
        at += 1
    end = at + 1 if at < len(given) and given[at] in b"+-" else at
    digits = end
    while end < len(given) and given[end] in DIGITS:
        end += 1
    if end == digits:
        return None
    value = int(given[at:end])
    if not SMALLEST <= value <= LARGEST:
        raise Fault("ReadRange")
    return value, end
