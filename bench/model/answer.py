"""What alma must answer: `front` for a source, `execute` for a run of it."""
import sys
import threading

from check import Checker
from meaning import Cut, Fault, Run, begin, emit, first, start
from parse import parse
from scan import SourceFault, place, scan
from statements import Statements


class Outcome:
    """status: nothing where visits or bytes of output were used up."""
    def __init__(self, status, out, err, visits=0):
        self.status, self.out, self.err, self.visits = status, out, err, visits


class Program:
    """A program that breaks no rule: its module body, and the name, slot and cells of its global variables."""
    def __init__(self, main, variables):
        self.main, self.variables = main, variables


def front(source, name):
    """A Program, or the Outcome of a source that is refused."""
    try:
        tokens = scan(source)
        tree = parse(tokens, source)
        checker = Checker(tokens, source)
        return Program(checker.module(tree), checker.globals)
    except SourceFault as fault:
        line, column = place(source, fault.offset)
        return Outcome(3, b"", f"{name}:{line}:{column}: {fault.name}\n".encode())


def listed(program, one):
    """A line of `all`: the cells of each global variable in an alternative."""
    cells = one[0][2]
    return b"{" + b" ".join(name + b"=" + b",".join(b"?" if cell is None else b"%d" % cell for cell in cells[slot:slot + count])
                            for name, slot, count in program.variables) + b"}\n"


def execute(program, given, most_visits, tool, most_out=None):
    """tool: `alma`, which makes one alternative, or `alma_all`, which makes and lists all."""
    begin(given, most_visits, most_out)
    status = 0
    try:
        alternatives = Statements(program.main).body()(start(program.main))
        if tool == "alma":
            status = 1 if first(alternatives) is None else 0
        else:
            for one in alternatives:
                Run.visits += 1
                emit(listed(program, one))
        return Outcome(status, bytes(Run.out), b"", Run.visits)
    except Fault as fault:
        return Outcome(4, bytes(Run.out), f"{tool}: fault {fault.name} line {fault.line}\n".encode(), Run.visits)
    except Cut:
        return Outcome(None, bytes(Run.out), b"", Run.visits)


def in_big_stack(function):
    """Ten thousand calls inside each other are many more of Python's."""
    sys.setrecursionlimit(10**6)
    threading.stack_size(1 << 30)
    result = []
    thread = threading.Thread(target=lambda: result.append(function()))
    thread.start()
    thread.join()
    return result[0] if result else 2
