"""Triples of book, rewriting and witness, true ones and others, to try the checker.

Each family has a name, a count, and what its maker means the answer to be: `yes`, `no`, or `?` where
a change was made blindly. The same seed gives the same triples.
"""
from books import stamps
from books.book import book
from generators.mappings import ALONE, ANYWHERE, MISTAKES
from generators.triple import Triple
from generators.true_triples import MOST, TrueMaker


class Maker(TrueMaker):
    """Makes triples that are mostly wrong, too; and all families in turn."""
    REFUSED_9 = "over a book refused with 9"
    LEFT_OUT = "a summary left out is used"

    def __init__(self, seed, base):
        super().__init__(seed, base)
        self.true = list(base)

    def left_out_used(self, t):
        t = self.other_stamps(t)
        at = self.pick(t.body)[0] - 1
        one = (stamps.a_stamp_left_out(self.random, t.need), t.summaries[at][1])
        return t.but(summaries=t.summaries[:at] + [one] + t.summaries[at + 1:])

    def thirteen(self, t):
        return self.witnessed(self.filled(t, MOST + 1))

    def no_subgoal(self, t):
        return t.but(body=[], back=[])

    def unlike_head(self, t):
        """As long as the question's: a term changed, two swapped, or a variable renamed in the whole rewriting."""
        if not t.head:
            return None
        head, at, by = list(t.head), self.random.randrange(len(t.head)), self.random.randrange(len(t.head))
        kind = self.random.randrange(3)
        if kind == 0:
            head[at] = self.pick([(0, self.random.randrange(32)), (1, head[at][1]), (1, 7)])
        elif kind == 1:
            head[at], head[by] = head[by], head[at]
        elif head[at][0] == 0 and self.unused(t):
            return t.renamed({head[at]: self.pick(self.unused(t))})
        return t.but(head=head) if head != t.head else None

    def longer_head(self, t):
        """Longer or shorter by a term."""
        if t.head and self.chance(0.5):
            return t.but(head=t.head[:-1])
        return t.but(head=t.head + [self.pick(t.head + [(0, 0), (1, 0)])])

    def unsafe(self, t):
        """A variable of the head stands nowhere in the rewriting's body."""
        shown = [x for x in t.head if x[0] == 0]
        free = self.unused(t) + [v for v in t.variables() if v not in t.head]
        return t.renamed({self.pick(shown): self.pick(free)}).but(head=t.head) if shown and free else None

    def unsound(self, t):
        """A summary that the rewriting does not use is unsound, left out or not."""
        head, goals = self.damaged.a_rule(t.arities, 8, True)
        free = [(0, n) for n in range(32) if all((0, n) not in ts for _, ts in goals)]
        heads = (head[:7] + [self.pick(free or [(1, 0)])], head[:7] + [(1, 7)], head[:1] * 2 or [(1, 1)], head + [(1, 0)] * (9 - len(head)))
        bodies = ([], goals[:1] * 9, goals + [(len(t.arities), [])])
        rule = self.pick([(h, goals) for h in heads] + [(head, b) for b in bodies])
        stamp = self.pick((stamps.an_admitted_stamp, stamps.a_stamp_left_out))(self.random, t.need)
        return t.but(summaries=t.summaries + [(stamp, rule)]) if len(t.summaries) < 64 else None

    def sixty_five(self, t):
        return t.but(summaries=t.summaries + [(t.need, ([], t.summaries[0][1][1]))] * (65 - len(t.summaries)))

    def empty(self, t):
        some = self.random.randrange(7)
        return tuple(part if some >> i & 1 else b"" for i, part in enumerate(t.bytes()))

    def other_number(self, t):
        """Another summary's number, or none's."""
        at = self.random.randrange(len(t.body))
        number = self.pick((0, len(t.summaries) + 1, 255, self.random.randint(1, len(t.summaries))))
        return t.but(body=t.body[:at] + [(number, t.body[at][1])] + t.body[at + 1:])

    def changed_goal(self, t, change):
        """One of the rewriting's subgoals with other terms."""
        at = self.random.randrange(len(t.body))
        terms = change(t.body[at][1])
        return t.but(body=t.body[:at] + [(t.body[at][0], terms)] + t.body[at + 1:])

    def changed_term(self, t, change):
        """One term of the rewriting's body is another one, and the witness stays."""
        def changed(terms):
            at = self.random.randrange(len(terms)) if terms else 0
            return terms[:at] + [change(x) for x in terms[at:at + 1]] + terms[at + 1:]
        made = self.changed_goal(t, changed)
        return made if made.body != t.body else None

    def other_term(self, t):
        of_question = [x for _, terms in t.question[1] for x in terms]
        return self.changed_term(t, lambda x: self.pick([self.pick(of_question), (1, 999), (1, x[1]), (0, self.random.randrange(32))]))

    def bad_term(self, t):
        """A tag or a variable out of range."""
        numbers = (32, 33, 255, 256, 2 ** 31, 2 ** 32 - 1)
        return self.changed_term(t, lambda x: self.pick([(self.pick((2, 3, 255)), x[1]), (0, self.pick(numbers))]))

    def term_count(self, t):
        """A term too many or too few."""
        return self.changed_goal(t, lambda terms: terms[:-1] if terms and self.chance(0.5) else terms + [(0, 0)])

    def any_witness(self, t):
        """Numbers by chance, each of a subgoal that there is, perhaps one too high."""
        sizes = [len(use) for use in t.uses()]
        some_use = lambda: self.random.randint(1, len(sizes))
        there = [(u, self.random.randint(1, sizes[u - 1] + self.chance(0.05))) for u in (some_use() for _ in t.there)]
        return t.but(there=there, back=[self.random.randint(1, len(t.there) + self.chance(0.05)) for _ in t.back])

    def there_alone(self, t):
        """A subgoal more that cannot come back: the question has no such constant."""
        number, terms = self.pick(t.body + t.rows())
        if not terms or len(t.body) == MOST:
            return None
        terms = list(terms)
        terms[self.random.randrange(len(terms))] = (1, 999)
        return self.wrong(self.witnessed(self.put(t, (number, terms)), back=ANYWHERE))

    def back_alone(self, t):
        """A subgoal less."""
        at = self.random.randrange(len(t.body))
        return self.wrong(self.witnessed(t.but(body=t.body[:at] + t.body[at + 1:]), there=ALONE)) if len(t.body) > 1 else None

    def wrong(self, t):
        return t if t and not t.is_right() else None

    def mistaken(self, sense):
        """Right for a checker that makes this mistake in one part of the witness, and wrong."""
        def make(t):
            changed = self.pick((self.own, self.own, self.other_term, self.own_variables, self.elsewhere, self.twice))(t)
            if not changed:
                return None
            ways = {"there": sense} if self.chance(0.5) else {"back": sense}
            return self.wrong(self.witnessed(changed, **ways))
        return make

    def hidden_street(self, _):
        """Two uses that would be joined if their hidden variables were one, as when they are numbered with too little room."""
        count = self.random.randint(3, MOST)
        near, far = self.random.sample(range(count), 2)
        v = self.random.randrange(32)
        other = v - self.pick((0, 1, 8, 16, 31)) * (far - near)
        other = other if 0 <= other < 32 else v
        x, y, z = (0, 0), (0, 1), (0, 2)
        shown, hidden, also = (0, (v + 1) % 32), (0, v), (0, other)
        summaries = [([shown], [(0, [shown, hidden])]), ([shown], [(1, [also, shown])]), ([x], [(2, [x])])]
        if shown == also:
            return None
        a_book = book([2, 2, 1], 1, ([x], [(0, [x, y]), (1, [y, z]), (2, [x])]), [(1, s) for s in summaries])
        numbers = [1 if u == near else 2 if u == far else 3 for u in range(count)]
        return Triple(a_book, [(n, [z if n == 2 else x]) for n in numbers], [(numbers.index(n) + 1, 1) for n in (1, 2, 3)], numbers)

    # ---- one byte away from a true one

    def byte_changed(self, part):
        at = self.random.randrange(len(part))
        byte = self.pick((part[at] + 1, part[at] - 1, part[at] ^ 1 << self.random.randrange(8), self.random.randrange(256))) % 256
        return part[:at] + bytes([byte]) + part[at + 1:] if byte != part[at] else None

    def byte_added(self, part):
        at = self.pick((0, len(part), self.random.randint(0, len(part))))
        return part[:at] + bytes([self.pick((0, 1, self.random.randrange(256)))]) + part[at:]

    def byte_removed(self, part):
        at = self.pick((0, len(part) - 1, self.random.randrange(len(part))))
        return part[:at] + part[at + 1:]

    def away(self, t, which, change):
        parts = list(t.bytes())
        parts[which] = change(parts[which])
        return tuple(parts) if parts[which] is not None else None

    def away_from_any(self, which, change):
        return lambda _: self.away(self.pick(self.true), which, change)

    def away_from_longest(self, _):
        return self.away(self.longest(), self.random.randrange(3), self.pick((self.byte_changed, self.byte_added, self.byte_removed)))

    # ---- all families

    def families(self):
        """Name, maker, count, what is meant."""
        yield from [("the rewriter's own", self.own, 600, "yes"), ("not shortest", self.longer, 600, "yes"),
                    ("variables of its own", self.own_variables, 600, "yes"), ("a subgoal twice", self.twice, 500, "yes"),
                    ("another witness", self.other_witness, 600, "yes"), ("sent elsewhere on the way back", self.elsewhere, 500, "yes"),
                    ("in another order", self.other_order, 300, "yes"), (self.REFUSED_9, self.many_rows, 300, "yes"),
                    ("twelve subgoals", self.twelve, 200, "yes"), ("a hidden variable sent two ways", self.two_ways, 300, "yes"),
                    ("other stamps", self.other_stamps, 300, "yes"), ("a summary that has no say", self.no_say, 300, "yes"),
                    ("the longest of all", self.longest, 30, "yes")]
        yield from [(self.LEFT_OUT, self.left_out_used, 1500, "no"), ("thirteen subgoals", self.thirteen, 200, "no"),
                    ("no subgoal", self.no_subgoal, 100, "no"), ("an unlike head as long", self.unlike_head, 600, "no"),
                    ("a head longer or shorter", self.longer_head, 200, "no"), ("an unsafe rewriting", self.unsafe, 500, "no"),
                    ("an unsound summary beside", self.unsound, 400, "no"), ("sixty-five summaries", self.sixty_five, 50, "no"),
                    ("empty inputs", self.empty, 100, "no"), ("another summary's number", self.other_number, 400, "?"),
                    ("a term out of range", self.bad_term, 300, "no"), ("another term", self.other_term, 600, "?"),
                    ("a term too many or too few", self.term_count, 300, "no"), ("any witness", self.any_witness, 600, "?"),
                    ("there alone", self.there_alone, 400, "no"), ("back alone", self.back_alone, 400, "no"),
                    ("joined over hidden variables", self.hidden_street, 300, "no")]
        for name, sense in MISTAKES.items():
            yield "mistaken: " + name, self.mistaken(sense), 150, "no"
        for which, part in enumerate(("book", "rewriting", "witness")):
            for what, change, count in (("changed", self.byte_changed, 1500), ("added", self.byte_added, 600), ("removed", self.byte_removed, 600)):
                yield "%s: a byte %s" % (part, what), self.away_from_any(which, change), count, "?"
        yield "a byte away from the longest", self.away_from_longest, 60, "?"

    def triples(self):
        """Name, meaning and bytes of each."""
        for name, make, count, meant in self.families():
            tries, made = 0, 0
            while made < count and tries < 300 * count:
                tries += 1
                one = make(self.pick(self.base))
                if one:
                    made += 1
                    if meant == "yes":
                        self.true.append(one)
                    yield name, meant, one if isinstance(one, tuple) else one.bytes()
