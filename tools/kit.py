"""The words of a check by the kit, and the crates below one: of tools/check-cut, check-over and check-over-sources."""

KIT = "/opt/rattle"


def dependencies(top):
    """The crates of a clone, each with those that it names."""
    found = {}
    with open(f"{top}/crates.txt", encoding="utf-8") as file:
        for line in file:
            name, colon, names = line.split("#")[0].partition(":")
            if colon:
                found[name.split()[0]] = names.split()
    return found


def below(crate, named):
    """All that a crate stands on, lowest first: crates of the clone, and libraries of the kit."""
    found = []

    def visit(name):
        for other in named.get(name, []):
            if other not in found:
                visit(other)
                found.append(other)

    visit(crate)
    return found


def library(name):
    return f"{KIT}/rlibs/{name}.rlib"


def rattle(what, crate, root="src/lib.rt"):
    """The words that check or build a crate; what is behind them tells its libraries and sources."""
    return [f"{KIT}/bin/rattle", what, "--crate-name", crate, root]


def over_sources(crate, top, named):
    """The words that check a crate over the sources of those below it, in the folder crates/ of a clone."""
    words, lower = rattle("check", crate) + ["-L", f"dependency={KIT}/rlibs"], below(crate, named)
    for name in ["std", "core", *(name for name in lower if name not in named)]:
        words += ["--extern", f"{name}={library(name)}"]
    for name in (name for name in lower if name in named):
        words += source(name, top, named)
    return words


def source(crate, top, named):
    """The words that tell a crate below by its sources."""
    used = ",".join(["core", "std", *below(crate, named)])
    return ["--lib", f"{crate}:{used}={top}/crates/{crate}/src/lib.rt"]


def logic(crate, jobs="1"):
    """The last words of each check or build: the kit's logic, and in how many processes it is done."""
    built = ["--antt-project", f"{KIT}/rattle/logic/antt-project.json", "--logic-built", f"{KIT}/logic_built"]
    return [*built, "--links", f"{crate}=", "--jobs", jobs]
