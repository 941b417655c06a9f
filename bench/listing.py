"""A reader of listings, as `schc list` prints them and `schc compile` writes them with `--listing`."""
import dataclasses


@dataclasses.dataclass(frozen=True)
class Mark:
    """An event that happens as the instruction at an address begins, with the number of its body, variable or site."""

    address: int
    kind: str
    number: int | None


@dataclasses.dataclass
class Listing:
    frame: int = 0
    instructions: int = 0
    bodies: list = dataclasses.field(default_factory=list)
    orders: list = dataclasses.field(default_factory=list)
    cycles: list = dataclasses.field(default_factory=list)
    marks: list = dataclasses.field(default_factory=list)

    def marks_of_bodies(self):
        """The marks of each body, in the order of the bodies; the first of each is its entry."""
        bodies = []
        for mark in self.marks:
            if mark.kind == "enter":
                bodies.append([])
            bodies[-1].append(mark)
        return bodies


def read_listing(text):
    """The listing of a text, which must have its first line and its last."""
    lines = text.splitlines()
    if lines[0] != "schc listing 1" or lines[-1] != "end":
        raise ValueError("no listing")
    listing = Listing()
    for line in lines[1:-1]:
        word, rest = line.split(" ", 1)
        if word == "frame":
            listing.frame = int(rest)
        elif word == "instructions":
            listing.instructions = int(rest)
        elif word == "body":
            listing.bodies.append(rest.split(" ", 1)[1])
        elif word == "order":
            listing.orders.append([int(part) for part in rest.split(":")[1].split()])
        elif word == "cycle":
            site, places = rest.split(":")
            listing.cycles.append((int(site), places.split()))
        elif word == "mark":
            address, kind, *number = rest.split()
            listing.marks.append(Mark(int(address, 16), kind, int(number[0]) if number else None))
        else:
            raise ValueError(line)
    return listing
