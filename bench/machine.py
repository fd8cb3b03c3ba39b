"""A slow model of the situated machine, written from the definitions alone (docs/MACHINE.md) and for small problems without
fluents: it plays a script and gives the events and what is printed. It shares nothing with the program: words are read anew,
schedules come from Bellman and Ford's rounds over a list of bounds.
"""
from collections import namedtuple

Action = namedtuple("Action", "name least most start_conditions invariants end_conditions start_effects end_effects")
Timed = namedtuple("Timed", "tick effects")
Problem = namedtuple("Problem", "facts actions timed init goal")
Limits = namedtuple("Limits", "actions horizon lead nodes")
Line = namedtuple("Line", "reading verb actor")
Node = namedtuple("Node", "word rank")

# An item is its kind and its number; kinds stand in item order.
AT, END, START = 0, 1, 2


def is_durative(action):
    return action.most > 0


def text(problem):
    """The ground text of a problem. A literal is `+K` or `-K`, as pairs of truth and fact."""
    def literals(word, pairs):
        return " ".join([word, *("%s%d" % ("+" if sign else "-", fact) for fact, sign in pairs)])

    lines = ["ground 1", "scale 1", "facts %d" % len(problem.facts), *problem.facts, "fluents 0"]
    lines.append("actions %d" % len(problem.actions))
    for action in problem.actions:
        lines.append("act " + action.name)
        if is_durative(action):
            lines.append("length %d %d" % (action.least, action.most))
            lines.append(literals("cs", action.start_conditions))
            lines.append(literals("co", action.invariants))
            lines.append(literals("ce", action.end_conditions))
            lines.append(literals("es", action.start_effects))
            lines.append(literals("ee", action.end_effects))
        else:
            lines += ["instant", literals("cs", action.start_conditions), literals("es", action.start_effects)]
    lines.append("timed %d" % len(problem.timed))
    lines += [literals("at %d" % timed.tick, timed.effects) for timed in problem.timed]
    lines.append(" ".join(["init", *map(str, problem.init)]))
    lines += ["values", literals("goal", problem.goal), "end"]
    return "".join(line + "\n" for line in lines)


def conditions(problem, item):
    kind, number = item
    if kind == AT:
        return ()
    action = problem.actions[number]
    return action.end_conditions if kind == END else action.start_conditions


def effects(problem, item):
    kind, number = item
    if kind == AT:
        return problem.timed[number].effects
    action = problem.actions[number]
    return action.end_effects if kind == END else action.start_effects


def touches(problem, one, other):
    for fact, sign in effects(problem, one):
        if any(asked == fact for asked, _ in conditions(problem, other)):
            return True
        if any(changed == fact and added != sign for changed, added in effects(problem, other)):
            return True
    return False


def interfere(problem, one, other):
    return touches(problem, one, other) or touches(problem, other, one)


def holds(state, literals):
    return all((fact in state) == sign for fact, sign in literals)


class Reading:
    """How far a word was read: the state before its last group, that group, its timed items, what runs before it."""

    def __init__(self, problem):
        self.problem, self.before, self.group, self.timed, self.running = problem, frozenset(problem.init), (), 0, frozenset()

    def copy(self):
        other = Reading.__new__(Reading)
        other.__dict__.update(self.__dict__)
        return other

    def after(self):
        changes = [effect for item in self.group for effect in effects(self.problem, item)]
        deleted = {fact for fact, sign in changes if not sign}
        return frozenset(self.before - deleted | {fact for fact, sign in changes if sign})

    def runs_after(self):
        ends = {number for kind, number in self.group if kind == END}
        starts = {number for kind, number in self.group if kind == START and is_durative(self.problem.actions[number])}
        return frozenset(self.running - ends | starts)

    def closes(self):
        state = self.after()
        return not self.group or all(holds(state, self.problem.actions[a].invariants) for a in self.runs_after())

    def past_group(self):
        other = self.copy()
        other.before, other.group, other.running = self.after(), (), self.runs_after()
        return other

    def in_turn(self, item):
        kind, number = item
        ended = (END, number) in self.group
        if kind == AT:
            return number == self.timed
        if kind == END:
            return number in self.running and not ended
        return number not in self.running or ended

    def may_join(self, item):
        return (
            self.in_turn(item)
            and holds(self.before, conditions(self.problem, item))
            and all(other < item and not interfere(self.problem, other, item) for other in self.group)
        )

    def with_item(self, item):
        other = self.copy()
        other.group, other.timed = self.group + (item,), self.timed + (item[0] == AT)
        return other

    def with_mark(self, mark):
        """The reading behind one mark more, or None where the mark may not follow."""
        fresh, item = mark
        if fresh:
            base = self.past_group() if self.closes() else None
        else:
            base = self if self.group else None
        return base.with_item(item) if base and base.may_join(item) else None


def items(problem):
    numbers = range(len(problem.actions))
    return [(AT, k) for k in range(len(problem.timed))] + [(END, a) for a in numbers] + [(START, a) for a in numbers]


class Words:
    """What is known of the words of a problem: their readings, as they were found."""

    def __init__(self, problem, limits):
        self.problem, self.limits = problem, limits
        self.readings = {(): Reading(problem)}

    def reading(self, word):
        if word not in self.readings:
            front = self.reading(word[:-1])
            self.readings[word] = front and front.with_mark(word[-1])
        return self.readings[word]

    def rank(self, word):
        state = self.reading(word).after()
        return sum((fact in state) != sign for fact, sign in self.problem.goal)

    def acts(self, word):
        """The acts in order of their starts: action, group of the start, group of the end or None while it runs."""
        found, group = [], -1
        for fresh, (kind, number) in word:
            group += fresh
            if kind == START:
                found.append([number, group, None if is_durative(self.problem.actions[number]) else group])
            elif kind == END:
                next(act for act in found if act[0] == number and act[2] is None)[2] = group
        return found

    def schedule(self, word, now, commits, greatest):
        """The greatest or the least schedule, as the ticks of the groups and the ends of what runs; None where there is
        none. A variable is a group's number or ('end', action); a bound is x - y <= c."""
        acts, groups = self.acts(word), sum(fresh for fresh, _ in word)
        horizon, zero = self.limits.horizon, "zero"
        names = [zero, *range(groups), *(("end", act[0]) for act in acts if act[2] is None)]
        bounds = [(name, zero, horizon) for name in names[1:]] + [(zero, name, 0) for name in names[1:]]
        bounds += [(g, g + 1, -1) for g in range(groups - 1)]
        timed, group = [], -1
        for fresh, (kind, number) in word:
            group += fresh
            if kind == AT:
                timed.append(group)
                tick = self.problem.timed[number].tick
                bounds += [(group, zero, tick), (zero, group, -tick)]
        if len(timed) < len(self.problem.timed):
            bounds += [(g, zero, self.problem.timed[len(timed)].tick - 1) for g in range(groups)]
        waiting = list(commits)
        for action, opens, closes in acts:
            finish = ("end", action) if closes is None else closes
            kind = self.problem.actions[action]
            if closes is None or is_durative(kind):
                bounds += [(finish, opens, kind.most), (opens, finish, -kind.least)]
            if closes is None:
                bounds += [(g, finish, 0) for g in range(groups)]
            mine = next((c for c in waiting if c[0] == action), None)
            if mine is None:
                bounds.append((zero, opens, -now))
            else:
                waiting.remove(mine)
                bounds += [(opens, zero, mine[1]), (zero, opens, -mine[1])]
                bounds += [(finish, zero, mine[1] + mine[2]), (zero, finish, -mine[1] - mine[2])]
        bounds += [(g, zero, c[1]) for c in waiting for g in range(groups)]
        if len(acts) + len(waiting) > self.limits.actions:
            return None
        return solved(names, bounds, greatest)

    def is_live(self, word, now, commits):
        return self.reading(word) is not None and self.schedule(word, now, commits, True) is not None

    def live_marks(self, word, now, commits):
        marks = [(fresh, item) for fresh in (False, True) for item in items(self.problem)]
        return [mark for mark in marks if self.is_live(word + (mark,), now, commits)]

    def plan(self, word, now, commits):
        """The plan of the word under its least schedule, where the word is a whole possible plan's."""
        reading = self.reading(word)
        acts = self.acts(word)
        waiting = list(commits)
        for act in acts:
            mine = next((c for c in waiting if c[0] == act[0]), None)
            if mine:
                waiting.remove(mine)
        goes_on_at_0 = not word and self.problem.timed and self.problem.timed[0].tick == 0
        if waiting or goes_on_at_0 or any(act[2] is None for act in acts) or not reading.closes():
            return None
        if not holds(reading.after(), self.problem.goal):
            return None
        times = self.schedule(word, now, commits, False)
        if times is None:
            return None
        groups = sum(fresh for fresh, _ in word)
        return [(a, times[o], times[c] - times[o]) for a, o, c in acts], times[groups - 1] if groups else 0


def solved(names, bounds, greatest):
    """The greatest or the least values under the bounds, by rounds over all of them; None where they can't be met."""
    value = {name: 0 if name == "zero" or not greatest else float("inf") for name in names}
    for _ in range(len(names) + 1):
        changed = False
        for x, y, most in bounds:
            if greatest and value[y] + most < value[x]:
                value[x], changed = value[y] + most, True
            elif not greatest and value[x] - most > value[y]:
                value[y], changed = value[x] - most, True
        if value["zero"] != 0:
            return None
        if not changed:
            return value
    return None


class Machine:
    """The machine with one turn a script line. `events` is the history, each event with its name first."""

    def __init__(self, problem, limits):
        self.problem, self.limits, self.words = problem, limits, Words(problem, limits)
        self.now, self.commits, self.made, self.over, self.events = 0, (), 1, False, []
        self.nodes, self.takers = {0: Node((), self.words.rank(()))}, {}

    def say(self, *event):
        self.events.append(event)
        self.over = self.over or event[0] in ("exhaust", "publish", "limit", "halt")

    def is_live(self, number):
        return self.words.is_live(self.nodes[number].word, self.now, self.commits)

    def due(self, number):
        """The act of the node that is due: of its first start that is no commitment, by its greatest schedule."""
        word = self.nodes[number].word
        times = self.words.schedule(word, self.now, self.commits, True)
        waiting = [c[0] for c in self.commits]
        for action, opens, closes in self.words.acts(word):
            if action in waiting:
                waiting.remove(action)
                continue
            finish = times[("end", action) if closes is None else closes]
            if times[opens] <= self.now + self.limits.lead:
                return action, times[opens], finish - times[opens]
            return None
        return None

    def settle(self):
        while not self.over:
            if not self.nodes:
                return self.say("exhaust")
            best = min(self.nodes, key=lambda number: (self.nodes[number].rank, number))
            if not self.is_live(best):
                self.drop(best)
                continue
            act = self.due(best)
            if act is None:
                return None
            self.say("do", *act)
            self.commits += (act,)
        return None

    def drop(self, number):
        self.say("drop", number)
        del self.nodes[number]
        self.takers.pop(number, None)

    def tick(self, actor, reading):
        self.say("tick", actor, reading)
        self.now = max(self.now, min(reading, self.limits.horizon + 1))
        self.settle()

    def look(self, actor, reading):
        self.tick(actor, reading)

    def take(self, actor, reading):
        """Gives what is taken, or None."""
        self.tick(actor, reading)
        while not self.over:
            open_nodes = [number for number in self.nodes if number not in self.takers]
            if not open_nodes:
                return None
            least = min(open_nodes, key=lambda number: (self.nodes[number].rank, number))
            if self.is_live(least):
                self.say("take", actor, least)
                self.takers[least] = actor
                self.settle()
                return least
            self.drop(least)
        return None

    def merge(self, actor, reading, number):
        """Whether the node still stood."""
        self.tick(actor, reading)
        if self.over or number not in self.nodes:
            return self.over
        word = self.nodes[number].word
        plan = self.words.plan(word, self.now, self.commits)
        marks = self.words.live_marks(word, self.now, self.commits)
        if plan:
            self.say("publish", actor, number, plan)
        elif self.made + len(marks) > self.limits.nodes:
            self.say("limit", actor, number, self.made, len(marks))
        else:
            self.say("expand", actor, number, tuple(marks))
            del self.nodes[number]
            self.takers.pop(number)
            for mark in marks:
                self.nodes[self.made] = Node(word + (mark,), self.words.rank(word + (mark,)))
                self.made += 1
            self.settle()
        return True


def play(problem, limits, script):
    """The machine behind a script, and what was seen of each kind of turn."""
    machine, held, seen = Machine(problem, limits), {}, {"stale": 0, "behind commitments": 0, "behind readings": 0}
    for line in script:
        if machine.over:
            break
        if line.verb == "take":
            number = machine.take(line.actor, line.reading)
            held[line.actor] = None if number is None else (number, machine.now, len(machine.commits))
        elif line.verb == "merge" and held.get(line.actor):
            number, now, commits = held.pop(line.actor)
            if machine.merge(line.actor, line.reading, number):
                seen["behind commitments"] += len(machine.commits) > commits
                seen["behind readings"] += machine.now > now
            else:
                seen["stale"] += 1
        else:
            machine.look(line.actor, line.reading)
            if line.verb == "merge":
                held.pop(line.actor, None)
    if not machine.over:
        machine.say("halt", "script")
    return machine, seen


def printed(machine):
    """All that is printed of a history, and the status."""
    def act(action, start, length):
        kind = machine.problem.actions[action]
        return "%d: (%s)%s\n" % (start, kind.name, " [%d]" % length if is_durative(kind) else "")

    said = "".join("do " + act(*event[1:]) for event in machine.events if event[0] == "do")
    last = machine.events[-1]
    if last[0] == "publish":
        acts, end = last[3]
        return said + "plan\n" + "".join(act(*one) for one in acts) + "end %d\n" % end, 0
    word, status = {"exhaust": ("exhausted", 1), "limit": ("limit", 2), "halt": ("stopped", 8)}[last[0]]
    return said + word + "\n", status


def trace(machine):
    """The trace of the history, as `--trace` keeps it."""
    def mark(fresh, item):
        return "%s%s%d" % ("+" if fresh else ".", "TES"[item[0]], item[1])

    lines = ["trace 1 %d" % len(machine.events)]
    for name, *rest in machine.events:
        if name == "expand":
            rest = rest[:2] + [mark(*one) for one in rest[2]]
        elif name == "publish":
            acts, end = rest[2]
            rest = rest[:2] + [end] + ["%d:%d:%d" % act for act in acts]
        lines.append(" ".join(map(str, [name, *rest])))
    return "".join(line + "\n" for line in lines)
