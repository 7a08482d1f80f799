#!/usr/bin/env python3
"""bench_books.py FOLDER [SEED]: the books that the rewriter's speed is measured on.

Writes a stream of books to FOLDER/NAME for each family, and a stream of one book for each named
book. The named ones are small, and each makes some plain search run for ages; the families are what
an archive may hold. The need and all stamps are 1.
"""
import os
import random
import sys

sys.path.insert(0, os.path.dirname(os.path.dirname(os.path.realpath(__file__))))
from books.book import book, rows, rule, stream

EACH = 200  # books of a family


def whole(question, summaries):
    """The book of a question and its summaries (rules, or text), with the arities that they show."""
    rules = [rule(r) if isinstance(r, str) else r for r in [question] + summaries]
    arity = {r: len(terms) for _, body in rules for r, terms in body}
    arities = [arity.get(r, 1) for r in range(max(arity) + 1)]
    return book(arities, 1, rules[0], [(1, r) for r in rules[1:]])


# ---- named books

def pairs(relation, count, start):
    """Loose subgoals: r(X0,X1), r(X2,X3), .."""
    return ", ".join("%d(X%d,X%d)" % (relation, start + 2 * i, start + 2 * i + 1) for i in range(count))


def path(relation, first, last):
    return ", ".join("%d(X%d,X%d)" % (relation, i, i + 1) for i in range(first, last))


def named():
    free5, free6, free7 = (pairs(0, n, 14) for n in (5, 6, 7))
    wide = "(A,B) from 0(A,B), " + free7
    twelve = "() from " + path(0, 0, 12)
    k2_question = "() from 5(X9,X10), 5(X0,X1), " + path(0, 11, 17) + ", 8(X0,X2), 9(X2), 8(X9,X3), 7(X3)"
    # the way back: eight, six and ninety-six hidden subgoals that fit anywhere, and a late failure
    yield "K1", "() from 5(X9,X10), 5(X0,X1), " + path(0, 11, 19) + ", 6(X0), 7(X9)", [
        "(A) from 5(A,B)", wide, "(A) from 6(A)", "(A) from 7(A)"]
    yield "K2", k2_question, ["(A) from 5(A,B)", wide, "(A) from 8(A,B), 9(B)", "(A) from 8(A,B), 7(B)"]
    yield "K3", k2_question, ["(A) from 5(A,B)", wide, "(A,B) from 8(A,B)", "(A) from 9(A)", "(A) from 7(A)"]
    yield "K4", "() from " + ", ".join("0(X%d,X%d)" % (i, i + 1) for i in range(11, -1, -1)), [wide]
    yield "K5", "() from " + path(0, 20, 24) + ", 2(X24), " + path(0, 0, 4) + ", 1(X4)", [
        wide, "(A) from 1(A)", "(A) from 2(A)"]
    # the way there
    yield "T1", "() from 5(X0,X1), " + pairs(0, 8, 2) + ", 3(X25), 8(X0,X26), 9(X26)", [
        "() from 3(D), 5(A,B), 8(A,C), " + free5, "() from 5(A,B), 8(A,C), 9(C), " + free5]
    # the rows
    yield "S1", twelve, ["(A) from 0(A,B), " + free7]
    yield "S2", twelve, ["(A) from " + free7 + ", 0(A,B)"]
    yield "S3", twelve, ["(A) from 0(A,B), " + free5 + ", 0(C,D), 0(D,C)"]
    yield "S6", twelve, ["(A) from " + free6 + ", 0(A,B), 0(B,A)"] * 64
    unary = "(A,B,C,D,E,F,G) from " + ", ".join("0(%s)" % v for v in "ABCDEFG")
    ten = "() from " + ", ".join("0(X%d)" % i for i in range(10)) + ", 1(X10,X11), 1(X12,X13)"
    yield "S7", ten, [unary + ", 1(H,H)"]
    yield "S8", ten, [unary + ", 1(A,G)"]
    # lists
    yield "nat1", "() from 0(X1,X0), 0(X0,X2), 0(X0,X3), 0(X3,X1), 0(X2,X1), 0(X0,X1)", [
        "(A,B,C,D) from 0(A,B), 0(A,C), 0(A,D)", "(A,B,C) from 0(A,B), 0(A,C), 0(C,A)",
        "(A,B,C,D) from 0(A,B), 0(B,C), 0(C,D)", "(A,B,D) from 0(A,B), 0(C,B), 0(A,C), 0(A,D)"]
    yield "groups-chain", "(X0,X12) from " + path(0, 0, 12), ["(A,B) from 0(A,B)"] * 5
    yield "groups-star", "(X0) from " + ", ".join("%d(X0,X%d)" % (i, i + 1) for i in range(12)), [
        "(A,B) from %d(A,B)" % i for i in range(12) for _ in range(5)]
    yield "incomparable", "(X0) from " + path(0, 0, 8) + ", 1(X8), 2(X8), 3(X8), 4(X8)", [
        text % l for l in (1, 2, 3, 4) for text in ("(A,B) from 0(A,B), %d(C)", "(A,B) from 0(A,B), 0(D,C), %d(C)")]
    yield "C11", "() from " + path(0, 0, 10) + ", 0(X10,X0)", ["(A,C) from 0(A,B), 0(B,C)"] * 5
    ring = [(i, (i + 1) % 5) for i in range(5)]
    yield "symmetric-C5", "() from " + ", ".join("0(X%d,X%d), 0(X%d,X%d)" % (a, b, b, a) for a, b in ring), [
        "(A,B) from 0(A,B), 0(B,A)"] * 6
    # columns shown in another order than the relation has them; and eight alike targets for each subgoal, in rows that are all wanted
    columns = ["(%s)" % ",".join("X%d" % (8 * r + i) for i in range(8)) for r in range(3)]
    yield "reversed", "(X0) from " + ", ".join("%d%s" % (r, columns[r]) for r in range(3)), [
        "(H,G,F,E,D,C,B,A) from %d(A,B,C,D,E,F,G,H)" % r for r in range(3)]
    eight = "(A,B,C,D,E,F,G,H)"
    yield "eightfold", eight + " from " + ", ".join("%d%s" % (r, eight) for r in range(12)), [
        eight + " from " + ", ".join(["%d%s" % (r, eight)] * 8) for r in range(12)]
    # folds: questions that are not cores
    loose = "() from " + pairs(0, 9, 0)
    yield "fold1", loose + ", 1(X20,X21), 2(X21)", ["() from " + free7 + ", 1(C,D)"] * 60 + ["() from " + free7 + ", 2(D)"] * 4
    yield "fold3", loose + ", " + path(0, 20, 23), [
        "() from 0(A,B), 0(B,C), 0(D,E), 0(E,F), 0(G,H), 0(H,I), 0(J,K), 0(K,L)"] * 64


# ---- families

class Maker:
    def __init__(self, seed):
        self.random = random.Random(seed)

    def chance(self, p):
        return self.random.random() < p

    def edges(self, shape, m):
        if shape == "star":
            return [(0, i + 1) for i in range(m)]
        if shape == "chain":
            return [(i, i + 1) for i in range(m)]
        if shape == "snowflake":  # a star whose rays go on
            rays = max(1, m // 3)
            return [(0, i + 1) if i < rays else (i - rays + 1, i + 1) for i in range(m)]
        vertices = max(2, 2 * m // 3)
        return [(self.random.randrange(vertices), self.random.randrange(vertices)) for _ in range(m)]

    def question(self, shape, m, relations):
        edges = self.edges(shape, m)
        names = list(range(m)) if relations >= m else [self.random.randrange(relations) for _ in range(m)]
        body = [(r, [(0, a), (0, b)]) for r, (a, b) in zip(names, edges)]
        if self.chance(0.3):
            gone = self.random.choice([t for _, ts in body for t in ts])
            body = [(r, [(1, 7) if t == gone else t for t in ts]) for r, ts in body]
        shown = self.random.choice((0.2, 0.5))
        variables = sorted({t for _, ts in body for t in ts if t[0] == 0})
        return ([t for t in variables if self.chance(shown)][:8], body)

    def part(self, question):
        """A connected part of 1 to 4 subgoals that hides some variables."""
        head, body = question
        size = self.random.randint(1, min(4, len(body)))
        taken = [self.random.randrange(len(body))]
        while len(taken) < size:
            near = [i for i in range(len(body)) if i not in taken
                    and any(t in body[j][1] and t[0] == 0 for j in taken for t in body[i][1])]
            if not near:
                break
            taken.append(self.random.choice(near))
        inside = [body[i] for i in taken]
        outside = {t for i, (_, ts) in enumerate(body) if i not in taken for t in ts} | set(head)
        variables = sorted({t for _, ts in inside for t in ts if t[0] == 0})
        shown = [t for t in variables if self.chance(0.85 if t in outside else 0.3)]
        return (shown[:8], inside)

    def single(self, subgoal):
        return (sorted({t for t in subgoal[1] if t[0] == 0}), [subgoal])

    def trimmed(self, question, summaries, most=64):
        """As many of the summaries as have at most so many rows together."""
        kept, total = [], 0
        for s in summaries:
            count = len(rows(s, question, most))
            if total + count <= most:
                kept.append(s)
                total += count
        return kept, total

    def summaries(self, question, count, singles=0.9):
        out = [self.single(g) for g in question[1] if self.chance(singles)]
        while len(out) < count:
            out.append(self.random.choice(out) if out and self.chance(0.2) else self.part(question))
        out = out[:count]
        self.random.shuffle(out)
        return self.trimmed(question, out)[0]

    def realistic(self, relations):
        """Shapes, sizes and numbers of summaries in turn; `relations` of the number of subgoals."""
        for i in range(EACH):
            shape = ("star", "chain", "snowflake", "digraph")[i % 4]
            m = (3, 6, 9, 12)[i // 4 % 4]
            count = (8, 24, 40, 64)[i // 16 % 4]
            question = self.question(shape, m, relations(m))
            yield whole(question, self.summaries(question, count))

    def full(self):
        """64 rows and 12 subgoals; every second one lacks a single subgoal that it needs."""
        made = 0
        while made < EACH:
            question = self.question(self.random.choice(("star", "chain", "snowflake", "digraph")), 12, 12)
            singles = [self.single(g) for g in question[1]]
            if made % 2:
                lost = self.random.randrange(12)
                singles.pop(lost)
            more = []
            while len(more) < 80:
                part = self.part(question)
                if made % 2 == 0 or question[1][lost] not in part[1]:
                    more.append(part)
            kept, total = self.trimmed(question, singles + more)
            if total == 64:
                self.random.shuffle(kept)
                yield whole(question, kept)
                made += 1

    def rings(self):
        """Cycles and cliques of one relation, with edges, paths, triangles and alike ones of them."""
        shapes = ["(A,B) from 0(A,B)", "(A,C) from 0(A,B), 0(B,C)", "(A,D) from 0(A,B), 0(B,C), 0(C,D)",
                  "(A,B) from 0(A,B), 0(B,A)", "(A,B,C) from 0(A,B), 0(B,C), 0(C,A)", "(A,B,C) from 0(A,B), 0(B,C)",
                  "(A) from 0(A,B), 0(B,A)", "(A,B) from 0(A,B), 0(B,C), 0(C,A)"]
        for _ in range(EACH):
            kind, n = self.random.randrange(3), self.random.randint(3, 12)
            if kind == 0:
                edges = [(i, (i + 1) % n) for i in range(n)]
            elif kind == 1:
                n = min(n, 6)
                edges = [e for i in range(n) for e in ((i, (i + 1) % n), ((i + 1) % n, i))]
            else:
                n = 3 if n < 8 else 4
                edges = [(i, j) for i in range(n) for j in range(n) if i != j]
            question = rule("() from " + ", ".join("0(X%d,X%d)" % e for e in edges))
            some = [rule(s) for s in self.random.sample(shapes, self.random.randint(1, 4))]
            kept, _ = self.trimmed(question, [s for _ in range(self.random.randint(1, 6)) for s in some])
            yield whole(question, kept)

    def folds(self):
        """Loose subgoals, a tail that may not fold, and summaries with hidden loose subgoals of their own."""
        for _ in range(EACH):
            tail = self.random.choice((path(0, 20, 22), path(0, 20, 23), "1(X20,X21), 2(X21)", "1(X20,X21), 2(X21), 3(X21)",
                                       path(0, 20, 22) + ", 4(X22)", "1(X20,X21), 1(X21,X22), 2(X22)"))
            count = 12 - tail.count("(")
            question = rule("() from " + pairs(0, count, 0) + ", " + tail)
            ends = ("1(C,D)", "2(D)", "3(D)", "1(C,D), 2(D)", "0(C,D), 0(D,E)", "0(C,D), 0(D,E), 0(E,F)", "1(C,D), 2(E)", "0(C,D), 4(D)")
            used = {r for r, _ in question[1]}
            out = []
            for _ in range(self.random.randint(1, 5)):
                end = self.random.choice([e for e in ends if {r for r, _ in rule("() from " + e)[1]} <= used])
                hidden = pairs(0, self.random.randint(1, 8 - end.count("(")), 14)
                out += [rule(self.random.choice(("()", "()", "(C)")) + " from " + hidden + ", " + end)] * self.random.choice((1, 4, 20))
            out = [s for s in out if all(any(t in ts for _, ts in s[1]) for t in s[0])]
            self.random.shuffle(out)
            yield whole(question, self.trimmed(question, out[:64])[0])


def main():
    folder, seed = sys.argv[1], int(sys.argv[2]) if len(sys.argv) > 2 else 1
    families = {"distinct": Maker(seed).realistic(lambda m: m),
                "repeated": Maker(seed + 1).realistic(lambda m: max(2, m // 2)),
                "self-joins": Maker(seed + 2).realistic(lambda m: 1 + m % 2),
                "full": Maker(seed + 3).full(), "rings": Maker(seed + 4).rings(), "folds": Maker(seed + 5).folds()}
    for name, question, summaries in named():
        families[name] = [whole(question, summaries)]
    os.makedirs(folder, exist_ok=True)
    for name, books in families.items():
        with open(os.path.join(folder, name), "wb") as out:
            out.write(stream(books))


if __name__ == "__main__":
    main()
