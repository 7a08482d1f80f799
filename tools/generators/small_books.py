#!/usr/bin/env python3
"""small_books.py SEED COUNT BOOKS: random books, small enough for a search that tries everything,
for comparing rewritings. The same seed gives the same books.
"""
import os
import random
import sys

sys.path.insert(0, os.path.dirname(os.path.dirname(os.path.realpath(__file__))))
from generators import damaged_books
from books import stamps
from books.book import book, rows, stream

TOP = 2 ** 32


class Maker:
    def __init__(self, seed):
        self.random = random.Random(seed)
        self.damaged = damaged_books.Maker(seed)

    def chance(self, p):
        return self.random.random() < p

    def number(self, low, high):
        return self.random.randint(low, high)

    # ---- questions

    def a_term(self, variables, constants):
        if self.chance(constants):
            return (1, self.random.choice((0, 1, 7, TOP - 1)))
        return (0, self.random.randrange(variables))

    def a_question(self, most=6):
        """Few variables and few relations, so that subgoals join, and often the same relation twice."""
        arities = [self.random.choice((1, 2, 2, 2, 3)) for _ in range(self.number(1, 3))]
        if self.chance(0.03):
            arities[0] = self.number(4, 8)
        m = self.number(1, most)
        variables, constants = self.number(1, m + 2), self.random.choice((0, 0, 0.1, 0.3))
        body = []
        for _ in range(m):
            r = self.random.randrange(len(arities))
            body.append((r, [self.a_term(variables, constants) for _ in range(arities[r])]))
        if self.chance(0.1):
            body.append(self.random.choice(body))  # a subgoal that stands there twice
        return arities, (self.a_head(body, self.random.choice((0, 0.3, 0.6))), body)

    def a_head(self, body, shown):
        """May hold a variable twice, and constants."""
        terms = sorted({t for _, ts in body for t in ts})
        head = [t for t in terms if self.chance(shown)]
        if head and self.chance(0.1):
            head.append(self.random.choice(head))
        self.random.shuffle(head)
        return head[:8]

    # ---- summaries

    def generalised(self, body, loosen):
        """The subgoals over other variables; some constants and some places get variables of their own."""
        names, fresh, out = {}, [0], []

        def variable():
            fresh[0] += 1
            return (0, fresh[0] - 1)

        for r, ts in body:
            new = []
            for t in ts:
                if self.chance(loosen):
                    new.append(variable())
                elif t[0] == 1 and self.chance(0.6):
                    new.append(t)
                else:
                    new.append(names[t] if t in names else names.setdefault(t, variable()))
            out.append((r, new))
        back = {v: t for t, v in names.items()}
        return (out, back) if fresh[0] <= 32 else (body, {})

    def part(self, question, shown_needed=0.8, shown=0.4):
        """Some of the question's subgoals, showing mostly what stands outside of them too."""
        head, body = question
        taken = self.random.sample(range(len(body)), self.number(1, min(len(body), 4)))
        outside = {t for i, (_, ts) in enumerate(body) if i not in taken for t in ts} | set(head)
        inside = [body[i] for i in taken]
        if self.chance(0.2):
            inside.append(self.random.choice(body))
        out, back = self.generalised(inside, self.random.choice((0, 0, 0, 0.1)))
        variables = sorted({t for _, ts in out for t in ts if t[0] == 0})
        self.random.shuffle(variables)
        return ([v for v in variables if self.chance(shown_needed if back.get(v) in outside else shown)][:8], out)

    def single(self, subgoal):
        out, _ = self.generalised([subgoal], 0)
        return (sorted({t for t in out[0][1] if t[0] == 0}), out)

    def a_stamp(self, need):
        return (stamps.a_stamp_left_out if self.chance(0.15) else stamps.an_admitted_stamp)(self.random, need)

    def renamed(self, a_rule):
        """The same rule over other variables, so that another order of terms decides."""
        head, body = a_rule
        variables = sorted({t for _, ts in body for t in ts if t[0] == 0})
        names = dict(zip(variables, ((0, n) for n in self.random.sample(range(32), len(variables)))))
        other = lambda ts: [names.get(t, t) for t in ts]
        return (other(head), [(r, other(ts)) for r, ts in body])

    def finished(self, arities, question, summaries, most=16):
        """The book, with as many of the summaries as have not too many rows for a search that tries all lists."""
        need = stamps.a_need(self.random)
        rename = self.renamed if self.chance(0.4) else lambda r: r
        kept, total = [], 0
        for s in summaries[:64]:
            count = len(rows(s, question, most)) if len(s[1]) <= 8 else most + 1
            if total + count <= most:
                kept.append((self.a_stamp(need), rename(s)))
                total += count
        return book(arities, need, rename(question), kept)

    # ---- families

    def parts(self):
        arities, question = self.a_question()
        out = [self.part(question) for _ in range(self.number(1, 7))]
        return self.finished(arities, question, out)

    def singles(self):
        """Longer answers: each subgoal by itself, and some parts that may spare a few."""
        arities, question = self.a_question(7)
        out = []
        for g in question[1]:
            if self.single(g) not in out and self.chance(0.95):  # alike ones make too many lists to try
                out.append(self.single(g))
        out += [self.part(question, 0.95, 0.5) for _ in range(self.number(0, 2))]
        self.random.shuffle(out)
        return self.finished(arities, question, out)

    def distinct(self):
        """Each relation once, all singles: as many subgoals as the question, up to twelve."""
        m = self.number(2, 12)
        question = ([], [(i, [(0, i), (0, (i + 1) % (m + 1))]) for i in range(m)])
        question = (self.a_head(question[1], 0.3), question[1])
        out = [self.single(g) for g in question[1]] + [self.part(question, 1, 0.2) for _ in range(self.number(0, 3))]
        self.random.shuffle(out)
        return self.finished([2] * m, question, out)

    def folding(self):
        """One relation, loose and joined subgoals, hidden variables: questions that can be shortened."""
        body = [(0, [(0, self.number(0, 5)), (0, self.number(0, 5))]) for _ in range(self.number(2, 6))]
        question = (self.a_head(body, self.random.choice((0, 0, 0.3))), body)
        out = [self.part(question, 0.5, 0.2) for _ in range(self.number(1, 5))]
        return self.finished([2], question, out)

    def wide(self):
        """Long subgoals and long heads."""
        arities = [self.number(4, 8) for _ in range(self.number(1, 3))]
        variables, constants = self.number(4, 20), self.random.choice((0, 0.1))
        body = []
        for _ in range(self.number(1, 5)):
            r = self.random.randrange(len(arities))
            body.append((r, [self.a_term(variables, constants) for _ in range(arities[r])]))
        question = (self.a_head(body, self.random.choice((0.2, 0.5))), body)
        out = [self.part(question, 0.95, 0.3) for _ in range(self.number(1, 6))]
        out += [s for s in map(self.single, body) if len(s[0]) <= 8]
        self.random.shuffle(out)
        return self.finished(arities, question, out)

    def crowd(self):
        """Many summaries, most of them without a row or left out."""
        arities, question = self.a_question(5)
        arities = arities + [self.number(1, 3)]
        out = [self.part(question) for _ in range(self.number(1, 5))] + [self.single(g) for g in question[1] if self.chance(0.7)]
        idle = len(arities) - 1  # a relation that the question does not have
        while len(out) < 64 and self.chance(0.97):
            variables = [(0, v) for v in range(arities[idle])]
            joined = (self.random.choice(question[1]),) if self.chance(0.5) else ()
            out.append((variables[:self.number(0, arities[idle])], [*joined, (idle, variables)]))
        self.random.shuffle(out)
        return self.finished(arities, question, out)

    def alike(self):
        """The same summaries many times: near 64 rows, and short answers."""
        m = self.number(2, 5)
        body = [(self.random.randrange(2), [(0, self.number(0, m)), (0, self.number(0, m))]) for _ in range(m)]
        question = (self.a_head(body, 0.3), body)
        whole = self.renamed(self.part((body[0][1], body), 1, 0.9))
        some = [self.single(g) for g in body[:2]] + [self.part(question, 0.9, 0.6), self.part(question, 0.9, 0.9), whole]
        out = [self.random.choice(some) for _ in range(self.number(20, 64))]
        if self.chance(0.6):
            out.append(([t for t in sorted({t for _, ts in body for t in ts}) if self.chance(0.7)], body))
            self.random.shuffle(out)
        return self.finished([2, 2], question, out, self.number(58, 70))

    def many_rows(self):
        """Products: some 64 rows, or a few more or less."""
        m, unary = self.number(6, 9), self.number(1, 2)
        body = [(0, [(0, i)]) for i in range(m)] + [(1, [(0, self.random.randrange(m))]) for _ in range(unary)]
        product = ([(0, 0), (0, 1)], [(0, [(0, 0)]), (0, [(0, 1)])])
        out = [product] + [([(0, 0)], [(self.random.randrange(2), [(0, 0)])]) for _ in range(self.number(0, 2))]
        if self.chance(0.3):
            out.append(([(0, 0), (0, 1)], [(0, [(0, 0)]), (1, [(0, 1)])]))
        return self.finished([1, 1], (self.a_head(body, 0.2), body), out, 1000)

    def anything(self):
        """Rules that have nothing to do with each other."""
        arities, question = self.a_question()
        out = []
        for _ in range(self.number(0, 5)):
            body = [(r, [self.a_term(4, 0.1) for _ in range(arities[r])])
                    for r in (self.random.randrange(len(arities)) for _ in range(self.number(1, 3)))]
            variables = sorted({t for _, ts in body for t in ts if t[0] == 0})
            out.append(([v for v in variables if self.chance(0.5)], body))
        return self.finished(arities, question, out)

    def refused(self):
        """Mostly damaged, for the refusals of reading; small ones alone."""
        while True:
            one = self.damaged.next()[0]
            if len(one) < 300:
                return one

    def next(self):
        families = [(self.parts, 26), (self.singles, 22), (self.distinct, 8), (self.folding, 13), (self.wide, 5),
                    (self.crowd, 3), (self.alike, 3), (self.many_rows, 4), (self.anything, 6), (self.refused, 10)]
        return self.random.choices([f for f, _ in families], [w for _, w in families])[0]()


def main():
    maker = Maker(int(sys.argv[1]))
    with open(sys.argv[3], "wb") as out:
        out.write(stream(maker.next() for _ in range(int(sys.argv[2]))))


if __name__ == "__main__":
    main()
