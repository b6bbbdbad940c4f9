"""What a run is made of: prints, visits, faults, stores, and the order of alternatives.

An expression is a function from a store to a store and a value, or to nothing where it fails; a statement or a test is one from a store to its
alternatives, which are made one after the other. What an alternative prints is printed when it is made, and stays printed.
"""


class Fault(Exception):
    def __init__(self, name, line=0):
        self.name, self.line = name, line


class Cut(Exception):
    """The visits or the bytes of output that were allowed are used up."""


class Returned:
    """An alternative that left its statements by RETURN, with the value if there is one."""
    __slots__ = ("store", "value")

    def __init__(self, store, value):
        self.store, self.value = store, value


class Run:
    """The one run that is under way."""
    out, visits, most_visits, input, most_out = bytearray(), 0, 0, b"", None


def begin(given, most_visits, most_out):
    Run.out, Run.visits, Run.most_visits, Run.input, Run.most_out = bytearray(), 0, most_visits, given, most_out


def visit(count=1):
    Run.visits += count
    if Run.visits > Run.most_visits:
        raise Cut()


def emit(text):
    Run.out += text
    if Run.most_out is not None and len(Run.out) >= Run.most_out:
        raise Cut()


def first(alternatives):
    for one in alternatives:
        return one
    return None


# ---- Stores: a tuple of frames. A frame is its routine, the frame of the routine around it, its cells, and the cells declared up to here.


def put(store, frame, slot, *values):
    routine, link, cells, total = store[frame]
    changed = routine, link, cells[:slot] + values + cells[slot + len(values):], total
    return store[:frame] + (changed,) + store[frame + 1:]


def start(main):
    return ((main, 0, (0,) + (None,) * (main.slots - 1), main.declared),)


def carried(store, changes):
    """A store with the changes that bodies of a FORALL kept."""
    for (frame, slot), value in changes.items():
        if frame < len(store) and slot < len(store[frame][2]):
            store = put(store, frame, slot, value)
    return store


def in_range(value, type):
    if not type.low <= value <= type.high:
        raise Fault("Range")


# ---- Sequences, without recursion in their length


def chained(store, turn):
    """What stands at the ends of chains that begin with a store: `turn` gives for an alternative and its place in the chain an end, or
    nothing and the alternatives that follow."""
    stack = [iter((store,))]
    while stack:
        for one in stack[-1]:
            end, following = (one, None) if type(one) is Returned else turn(one, len(stack))
            if following is None:
                yield end
            else:
                stack.append(iter(following))
                break
        else:
            stack.pop()


def sequence(parts):
    if len(parts) == 1:
        return parts[0]
    return lambda store: chained(store, lambda one, at: (None, parts[at - 1](one)) if at <= len(parts) else (one, None))
