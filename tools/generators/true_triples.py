"""True triples of book, rewriting and witness, made from books that the rewriter accepted: right ones
that are not its own answers. A witness that is not known is looked for, at random."""
import random

from generators import damaged_books
from generators import largest
from books import stamps
from generators.mappings import RIGHT
from generators.triple import Triple

MOST = 12


class TrueMaker:
    """Makes true triples out of others, each family by a method that answers None where it cannot."""

    def __init__(self, seed, base):
        self.random, self.base = random.Random(seed), base
        self.damaged = damaged_books.Maker(seed)

    def chance(self, p):
        return self.random.random() < p

    def pick(self, some):
        return self.random.choice(some)

    def witnessed(self, t, there=RIGHT, back=RIGHT):
        """The triple with a witness by chance, each part a mapping in that sense; None where none is found."""
        uses = t.uses(there)
        names = [(u + 1, g + 1) for u, use in enumerate(uses) for g in range(len(use))]
        to = there.mapping(self.random, t.question[1], [g for use in uses for g in use], t.head)
        fro = to and back.mapping(self.random, [g for use in t.uses(back) for g in use], t.question[1], t.head)
        return fro and t.but(there=[names[k] for k in to], back=[k + 1 for k in fro])

    def put(self, t, *more):
        """The rewriting with these subgoals put in anywhere."""
        body = list(t.body)
        for goal in more:
            body.insert(self.random.randint(0, len(body)), goal)
        return t.but(body=body)

    def unused(self, t):
        """Variables that neither the question nor the rewriting has."""
        used = {x for _, ts in t.question[1] + t.body for x in ts}
        return [(0, n) for n in range(32) if (0, n) not in used]

    def own(self, t):
        return t

    def longer(self, t):
        """More rows than are needed."""
        more = [r for r in t.rows() if r not in t.body]
        count = min(self.random.randint(1, 3), len(more), MOST - len(t.body))
        return self.witnessed(self.put(t, *self.random.sample(more, count))) if count > 0 else None

    def loosened(self, t, goal):
        """The subgoal with variables of its own in some places."""
        free = self.unused(t)
        return (goal[0], [self.pick(free) if free and self.chance(0.5) else x for x in goal[1]])

    def own_variables(self, t):
        free = self.unused(t)
        if self.chance(0.5):
            inner = [v for v in t.variables() if v not in t.head]
            if not inner or len(inner) > len(free):
                return None
            return t.renamed(dict(zip(inner, self.random.sample(free, len(inner)))))
        goal = self.loosened(t, self.pick(t.body + t.rows()))
        is_new = set(goal[1]) & set(free)
        return self.witnessed(self.put(t, goal)) if is_new and len(t.body) < MOST else None

    def twice(self, t):
        return self.witnessed(self.put(t, self.pick(t.body))) if len(t.body) < MOST else None

    def other_witness(self, t):
        made = self.witnessed(t)
        return made if made and made.bytes() != t.bytes() else None

    def elsewhere(self, t):
        """The rewriting has the question's variables, but not where the question has them."""
        inner = [v for v in t.variables() if v not in t.head]
        names = [v for v in sorted({x for _, ts in t.question[1] for x in ts if x[0] == 0}) if v not in t.head]
        if len(names) < 2 or not inner:
            return None
        to = self.random.sample(names, len(inner)) if len(inner) <= len(names) else inner
        return t.renamed(dict(zip(inner, to))) if to != inner else None

    def other_order(self, t):
        order = self.random.sample(range(len(t.body)), len(t.body))
        starts = [sum(map(len, t.uses()[:u])) for u in range(len(t.body) + 1)]
        back = [t.back[k] for u in order for k in range(starts[u], starts[u + 1])]
        moved = t.but(body=[t.body[u] for u in order], there=[(order.index(u - 1) + 1, g) for u, g in t.there], back=back)
        return moved if moved.body != t.body else None

    def many_rows(self, t):
        """A summary put at the end that has more than 64 rows, of loose subgoals; perhaps it is used too."""
        images = {(r, a): {ts[a] for s, ts in t.question[1] if s == r} for r, ts in t.question[1] for a in range(len(ts))}
        (r, a), best = max(images.items(), key=lambda item: (len(item[1]), item[0]))
        count = next((c for c in range(1, 9) if len(best) ** c > 64), 9)
        arity = t.arities[r]
        if count > 8 or count * arity > 32 or len(t.summaries) == 64:
            return None
        goals = [(r, [(0, g * arity + b) for b in range(arity)]) for g in range(count)]
        rule = ([goal[1][a] for goal in goals], goals)
        made = t.but(summaries=t.summaries + [(stamps.an_admitted_stamp(self.random, t.need), rule)])
        if self.chance(0.5) or len(t.body) == MOST:
            return made
        return self.witnessed(self.put(made, (len(made.summaries), [self.pick(sorted(best)) for _ in range(count)])))

    def filled(self, t, count):
        """So many subgoals: rows, subgoals twice, and such with variables of their own."""
        goals = [self.pick(t.body + t.rows()) for _ in range(count - len(t.body))]
        return self.put(t, *(self.loosened(t, g) if self.chance(0.3) else g for g in goals))

    def twelve(self, t):
        return self.witnessed(self.filled(t, MOST))

    def two_ways(self, t):
        """A hidden variable of a summary is sent to one term in one use, and to another in another."""
        made = self.pick((self.longer, self.twice, self.other_witness))(t)
        return made if made and any(len(found) > 1 for found in made.hidden_images().values()) else None

    def other_stamps(self, t):
        """Other stamps, each still admitted or still left out."""
        need = stamps.a_need(self.random)
        as_before = lambda stamp: stamps.an_admitted_stamp if stamps.is_admitted(t.need, stamp) else stamps.a_stamp_left_out
        return t.but(need=need, summaries=[(as_before(stamp)(self.random, need), rule) for stamp, rule in t.summaries])

    def no_say(self, t):
        """A summary that is left out, with any sound rule, put in the place of another one or at the end."""
        rule = self.damaged.a_rule(t.arities, 8, True)
        one = (stamps.a_stamp_left_out(self.random, t.need), rule)
        free = [i for i in range(len(t.summaries)) if i + 1 not in {number for number, _ in t.body}]
        if free and self.chance(0.5):
            at = self.pick(free)
            return t.but(summaries=t.summaries[:at] + [one] + t.summaries[at + 1:])
        return t.but(summaries=t.summaries + [one]) if len(t.summaries) < 64 else None

    def longest(self, _=None):
        """The longest book, rewriting and witness."""
        return self.other_order(Triple(largest.BOOK, largest.body(self.random.randint(0, 1)), largest.THERE, largest.BACK))
