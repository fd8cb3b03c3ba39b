#!/usr/bin/env python3
"""Problems of any size for measuring the search: each is a function of its family, its size and a seed.

usage: bench/families.py FAMILY SIZE [SEED]      prints the ground text
       bench/families.py                         says what each family is

The search tries words and never merges equal states, so each family grows by its tree.
"""
import random
import sys


class Problem:
    """A problem as it is put together: facts and fluents go by their names. A literal is `+fact` or `-fact`; a
    comparison is (OPERATOR, EXPRESSION, EXPRESSION), a change (`inc`, `dec` or `set`, FLUENT, EXPRESSION), and an
    expression a number, a fluent or (`+` or `-`, EXPRESSION, EXPRESSION)."""

    def __init__(self):
        self.fluents, self.actions, self.timed, self.init, self.goal = {}, [], {}, set(), []

    def instant(self, name, conds, effects):
        self.actions.append((name, None, (conds, [], [], effects, [])))

    def durative(self, name, least, most, conds, invariants, end_conds, effects, end_effects):
        """An action whose length is at least and at most so many ticks."""
        self.actions.append((name, (least, most), (conds, invariants, end_conds, effects, end_effects)))

    def at(self, tick, literal):
        """A timed literal."""
        self.timed.setdefault(tick, []).append(literal)

    def text(self):
        parts = [part for _, _, lists in self.actions for part in sum(lists, [])] + self.goal
        parts += [part for literals in self.timed.values() for part in literals]
        facts = sorted({part[1:] for part in parts if isinstance(part, str)})
        fluents = sorted(self.fluents)
        fact_at = {fact: k for k, fact in enumerate(facts)}
        fluent_at = {fluent: k for k, fluent in enumerate(fluents)}

        def expression(of):
            if isinstance(of, tuple):
                return "(%s %s %s)" % (of[0], expression(of[1]), expression(of[2]))
            return "n%d" % fluent_at[of] if isinstance(of, str) else str(of)

        def shown(part):
            if isinstance(part, str):
                return "%s%d" % (part[0], fact_at[part[1:]])
            if part[0] in ("inc", "dec", "set"):
                return "(%s %d %s)" % (part[0], fluent_at[part[1]], expression(part[2]))
            return expression(part)

        def line(head, of):
            return " ".join([head] + [shown(part) for part in of])

        lines = ["ground 1", "scale 1", "facts %d" % len(facts)] + facts
        lines += ["fluents %d" % len(fluents)] + fluents + ["actions %d" % len(self.actions)]
        for name, length, lists in self.actions:
            if length is None:
                lines += ["act " + name, "instant", line("cs", lists[0]), line("es", lists[3])]
            else:
                heads = ("cs", "co", "ce", "es", "ee")
                lines += ["act " + name, "length %d %d" % length]
                lines += [line(head, of) for head, of in zip(heads, lists)]
        lines += ["timed %d" % len(self.timed)]
        for tick in sorted(self.timed):
            lines += [line("at %d" % tick, sorted(self.timed[tick], key=lambda part: fact_at[part[1:]]))]
        holding = sorted(fact_at[fact] for fact in self.init if fact in fact_at)
        lines += [" ".join(["init"] + [str(k) for k in holding])]
        lines += [" ".join(["values"] + [str(self.fluents[fluent]) for fluent in fluents])]
        return "\n".join(lines + [line("goal", self.goal), "end"]) + "\n"


def put_grid(problem, width, conds=()):
    """A walker on a square of so many cells a side."""
    for x in range(width):
        for y in range(width):
            for u, v in ((x + 1, y), (x, y + 1), (x - 1, y), (x, y - 1)):
                if 0 <= u < width and 0 <= v < width:
                    here, there = "at %d %d" % (x, y), "at %d %d" % (u, v)
                    name = "go %d %d %d %d" % (x, y, u, v)
                    problem.instant(name, ["+" + here, *conds], ["-" + here, "+" + there])
    problem.init.add("at 0 0")


def grid(size, seed):
    """Plain: one walker, so many steps from its goal, breadth first over all walks; about three children a node."""
    problem = Problem()
    put_grid(problem, size + 3)
    x = random.Random(seed).randint(0, size)
    problem.goal = ["+at %d %d" % (x, size - x)]
    return problem


def deep(size, seed):
    """Plain: 44 instants that the rank leads through, then so many steps of walking: words of 45 groups and more."""
    problem = Problem()
    for k in range(44):
        problem.instant("up %d" % k, ["+s %d" % k, "-s %d" % (k + 1)], ["+s %d" % (k + 1)])
        problem.goal.append("+s %d" % (k + 1))
    put_grid(problem, size + 3, ["+s 44"])
    problem.init.add("s 0")
    x = random.Random(seed).randint(0, size)
    problem.goal.append("+at %d %d" % (x, size - x))
    return problem


def slide(size, seed):
    """Plain: so many tokens on a ring with two empty cells, each to be some cells on: ranks that rise and fall."""
    problem, draws, cells = Problem(), random.Random(seed), size + 2
    for token in range(size):
        for cell in range(cells):
            on = (cell + 1) % cells
            conds = ["+at %d %d" % (token, cell), "+free %d" % on]
            effects = ["-at %d %d" % (token, cell), "-free %d" % on, "+at %d %d" % (token, on), "+free %d" % cell]
            problem.instant("slide %d %d" % (token, cell), conds, effects)
    for token in range(size):
        problem.init.add("at %d %d" % (token, token))
        problem.goal.append("+at %d %d" % (token, (token + 2 + draws.randint(0, 1)) % cells))
    problem.init |= {"free %d" % cell for cell in range(size, cells)}
    return problem


def put_trucks(problem, trucks, places):
    for truck in trucks:
        for a in places:
            for b in places:
                if (b - a) % len(places) in (1, 2, 5):
                    conds, effects = ["+t %d %d" % (truck, a)], ["-t %d %d" % (truck, a), "+t %d %d" % (truck, b)]
                    problem.instant("drive %d %d %d" % (truck, a, b), conds, effects)


def logistics(size, seed):
    """Plain: three trucks, six places, so many parcels: most pairs don't interfere, so groups take many items."""
    problem, draws, trucks, places = Problem(), random.Random(seed), range(3), range(6)
    put_trucks(problem, trucks, places)
    for parcel in range(size):
        for truck in trucks:
            for place in places:
                name = "%d %d %d" % (parcel, truck, place)
                at, inside = "p %d %d" % (parcel, place), "in %d %d" % (parcel, truck)
                truck_at = "t %d %d" % (truck, place)
                problem.instant("load " + name, ["+" + at, "+" + truck_at], ["-" + at, "+" + inside])
                problem.instant("unload " + name, ["+" + inside, "+" + truck_at], ["-" + inside, "+" + at])
        place = draws.choice(places)
        problem.init.add("p %d %d" % (parcel, place))
        problem.goal.append("+p %d %d" % (parcel, (place + draws.choice((2, 3, 4))) % 6))
    problem.init |= {"t %d %d" % (truck, draws.choice(places)) for truck in trucks}
    return problem


def deadplain(size, seed):
    """Plain, without a plan: so many flags to switch, and a goal that nothing adds: many joins, the whole tree."""
    problem = Problem()
    for flag in range(size):
        problem.instant("on %d" % flag, ["-f %d" % flag], ["+f %d" % flag])
        problem.instant("off %d" % flag, ["+f %d" % flag], ["-f %d" % flag])
    problem.goal = ["+never"]
    return problem


def wide(size, seed):
    """Plain: so many walkers on 2,048 cells with two ways out each, and a mark for each cell that was visited: 4,096
    facts and 4,096 actions, so that states are rows of 64 words."""
    problem, draws, cells, ways = Problem(), random.Random(seed), 2048, []
    for cell in range(cells):
        ways.append([(cell + 1) % cells, draws.randrange(cells)])
        if ways[cell][1] in (cell, ways[cell][0]):
            ways[cell][1] = (cell + 7) % cells
        for k, to in enumerate(ways[cell]):
            conds = ["+at %d" % cell, "-at %d" % to]
            problem.instant("go %d %d" % (cell, k), conds, ["-at %d" % cell, "+at %d" % to, "+seen %d" % to])
    for walker in range(size):
        cell = walker * (cells // size)
        problem.init.add("at %d" % cell)
        for _ in range(3 + walker % 3):
            cell = draws.choice(ways[cell])
        problem.goal.append("+seen %d" % cell)
    return problem


def fuel(size, seed):
    """Fluents: two trucks burn fuel on their way, fill up, and sell what they picked; the goal compares sums."""
    problem, draws, places = Problem(), random.Random(seed), 6
    for truck in "ab":
        tank, load = "fuel " + truck, "load " + truck
        problem.fluents.update({tank: 8, load: 0})
        for a in range(places):
            here = "at %s %d" % (truck, a)
            for b in ((a + 1) % places, (a + 2) % places):
                way = draws.randint(1, 4)
                burnt = ("+", way, load)
                effects = ["-" + here, "+at %s %d" % (truck, b), ("dec", tank, burnt), ("inc", "km", way)]
                problem.instant("drive %s %d %d" % (truck, a, b), ["+" + here, (">=", tank, burnt)], effects)
            if a % 2 == 0:
                effects = [("set", tank, 8), ("inc", "cost", 3)]
                problem.instant("fill %s %d" % (truck, a), ["+" + here, ("<", tank, 6)], effects)
            else:
                conds = ["+" + here, ("<", load, 2), (">", "stock", 0)]
                problem.instant("pick %s %d" % (truck, a), conds, [("inc", load, 1), ("dec", "stock", 1)])
        conds = ["+at %s 0" % truck, (">", load, 0)]
        problem.instant("drop %s" % truck, conds, [("inc", "sold", load), ("set", load, 0)])
        problem.init.add("at %s 0" % truck)
    problem.fluents.update({"km": 0, "cost": 0, "stock": 2 * size, "sold": 0})
    problem.goal = [(">=", "sold", size), ("<=", ("+", "cost", "km"), 14 * size), (">=", ("-", "sold", "stock"), 0)]
    return problem


def drawn_ways(customers, draws):
    """The depot, so many customers, and the ticks of the way between each two places."""
    places = ["depot"] + ["c%d" % (k + 1) for k in range(customers)]
    return places, {(a, b): draws.randint(3, 9) for a in places for b in places if a != b}


def put_couriers(problem, vehicles, places, ways, deadlines):
    """Vehicles that drive from a depot between customers, each of whom is served until a deadline of its own."""
    for vehicle in vehicles:
        for (a, b), way in ways.items():
            here, there = "at %s %s" % (vehicle, a), "at %s %s" % (vehicle, b)
            name = "drive %s %s %s" % (vehicle, a, b)
            problem.durative(name, way, way, ["+" + here], [], [], ["-" + here], ["+" + there])
    for vehicle in vehicles:
        for place in places[1:]:
            here = "+at %s %s" % (vehicle, place)
            kept = [here, "+open " + place]
            problem.durative("serve %s %s" % (vehicle, place), 3, 3, [here], kept, [], [], ["+served " + place])
    for place, deadline in zip(places[1:], deadlines):
        problem.init.add("open " + place)
        problem.at(deadline, "-open " + place)
        problem.goal.append("+served " + place)
    problem.init |= {"at %s depot" % vehicle for vehicle in vehicles}


def deadlines(size, seed):
    """Durative, with a deadline for each customer: so many customers, three vehicles: dead words and timed items."""
    problem, draws = Problem(), random.Random(seed)
    places, ways = drawn_ways(size, draws)
    late = [20 + 9 * k + draws.randint(0, 5) for k in range(1, size + 1)]
    put_couriers(problem, ["v1", "v2", "v3"], places, ways, late)
    return problem


def dead(size, seed):
    """Durative, without a plan: the couriers with late deadlines, and a goal part that nothing adds."""
    problem, (places, ways) = Problem(), drawn_ways(size, random.Random(seed))
    put_couriers(problem, ["v1", "v2"], places, ways, [300 + 40 * k for k in range(size)])
    problem.goal.append("+never")
    return problem


def late(size, seed):
    """Durative, without a plan: the couriers with deadlines behind the readings of a clock that moves each turn."""
    problem, (places, ways) = Problem(), drawn_ways(size, random.Random(seed))
    put_couriers(problem, ["v1", "v2"], places, ways, [1_000_000 + 40 * k for k in range(size)])
    problem.goal.append("+never")
    return problem


def deepd(size, seed):
    """Durative and deep: 26 acts in a row, each of which ends on its day, then so many steps of walking: words of 52
    groups and more."""
    problem, cells = Problem(), size + 2
    for k in range(26):
        conds, day = ["+s %d" % k, "-s %d" % (k + 1)], ["+day %d" % (k // 3)]
        problem.durative("up %d" % k, 2, 4, conds, [], day, [], ["+s %d" % (k + 1)])
        problem.goal.append("+s %d" % (k + 1))
    for cell in range(cells):
        for step in (1, 2, -1):
            if 0 <= cell + step < cells:
                here, there = "at %d" % cell, "at %d" % (cell + step)
                name = "go %d %d" % (cell, cell + step)
                problem.durative(name, 1, 3, ["+" + here, "+s 26"], [], [], ["-" + here], ["+" + there])
    for day in range(9):
        problem.init.add("day %d" % day)
        problem.at(100000, "-day %d" % day)
    problem.init |= {"s 0", "at 0"}
    problem.goal += ["+at %d" % (cells - 1), "+lit"]
    problem.durative("lamp", 1, 9, ["+at %d" % (cells - 1)], [], [], [], ["+lit"])
    return problem


FAMILIES = {
    family.__name__: family
    for family in (slide, logistics, deadplain, deep, grid, wide, fuel, deadlines, dead, late, deepd)
}


def text(family, size, seed=1):
    """The ground text of a problem."""
    return FAMILIES[family](size, seed).text()


def main():
    if len(sys.argv) < 3:
        for name, family in FAMILIES.items():
            print("%-10s %s" % (name, " ".join(family.__doc__.split())))
    else:
        sys.stdout.write(text(sys.argv[1], *[int(word) for word in sys.argv[2:]]))


if __name__ == "__main__":
    main()
