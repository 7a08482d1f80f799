#!/usr/bin/env python3
"""damaged_books.py SEED COUNT BOOKS LINES: random books, most of them damaged, to try the reading.

BOOKS becomes a stream of books; LINES says of each what its maker meant it to give, or `?` where a
damage was made blindly. The same seed gives the same books.
"""
import os
import random
import struct
import sys

sys.path.insert(0, os.path.dirname(os.path.dirname(os.path.realpath(__file__))))
from books.book import LONGEST, contents_end, layout, rule_bytes, stream, term_bytes

TOP = 2 ** 32


class Maker:
    def __init__(self, seed):
        self.random = random.Random(seed)

    def pick(self, *choices):
        return self.random.choice(choices)

    def upto(self, low, high):
        """A number from low to high, both ends more often than the rest."""
        return self.pick(low, high) if self.random.random() < 0.2 else self.random.randint(low, high)

    # ---- sound books, as lists that can be broken: arities, stamps, rules

    def a_term(self, variables):
        if variables and self.random.random() < 0.8:
            return (0, self.random.choice(variables))
        return (1, self.pick(0, 1, 7, 31, 32, TOP - 1, self.random.getrandbits(32)))

    def a_rule(self, arities, most_subgoals, is_summary):
        variables = self.random.sample(range(32), self.upto(0 if self.random.random() < 0.1 else 1, 8))
        body = []
        for _ in range(self.upto(1, most_subgoals)):
            r = self.random.randrange(len(arities))
            body.append((r, [self.a_term(variables) for _ in range(arities[r])]))
        shown = sorted({t for _, ts in body for t in ts if t[0] == 0})
        self.random.shuffle(shown)
        head = shown[: self.upto(0, 8)]
        if not is_summary:  # a question's head may repeat a variable and hold constants
            head = [self.a_term([t[1] for t in shown]) for _ in range(self.upto(0, 8))]
        return (head, body)

    def a_book(self):
        """The parts of a sound book: arities, stamps (need first), rules (question first)."""
        big = self.random.random() < 0.03
        arities = [self.upto(1, 8 if big else 4) for _ in range(self.upto(1, 32 if big else 6))]
        n = self.upto(0, 64 if big else 5)
        rules = [self.a_rule(arities, 12, False)] + [self.a_rule(arities, 8 if big else 3, True) for _ in range(n)]
        stamps = [self.pick(0, 1, TOP - 1, self.random.getrandbits(32)) for _ in rules]
        return arities, stamps, rules

    def bodies(self):
        arities, stamps, rules = self.a_book()
        return [bytes(arities)] + [rule_bytes(r) for r in rules], [0] + stamps

    def sound(self):
        return layout(*self.bodies()), "sound"

    def largest(self):
        """A sound book of the longest length, or one or two bytes from it, in a body or past the end."""
        arities = [8] * 32
        term = lambda: (0, self.random.randrange(8))
        fill = lambda k: [(self.random.randrange(32), [(0, v) for v in range(8)]) for _ in range(k)]
        bodies = [bytes(arities), rule_bytes(([term() for _ in range(8)], fill(12)))]
        bodies += [rule_bytes(([(0, v) for v in range(8)], fill(8))) for _ in range(64)]
        whole = layout(bodies, [0] + [1] * 65)
        assert len(whole) == LONGEST
        return self.pick((whole, "sound"), (whole + b"\0", "refused 2 at 0"), (whole[:-1], "refused 4 at 0"),
                         (whole + bytes(self.random.randrange(1, 3000)), "refused 2 at 0"))

    # ---- one damage each, with what it must give

    def outsize(self):
        if self.random.random() < 0.97:
            return self.random.randbytes(self.random.randrange(2)), "refused 2 at 0"
        return self.random.randbytes(self.upto(LONGEST + 1, LONGEST + 9)), "refused 2 at 0"

    def many(self):
        bodies, stamps = self.bodies()
        return layout(bodies, stamps, self.upto(65, 65535)), "refused 3 at 0"

    def sixty_five(self):
        """One summary too many, and every byte of it in order."""
        question = rule_bytes(([], [(0, [(0, 0)])]))
        return layout([b"\1"] + [question] * 66, [0] * 67), "refused 3 at 0"

    def patched(self, whole, at, number, line):
        return whole[:at] + struct.pack("<I", number % TOP) + whole[at + 4:], line

    def gap(self):
        """An offset or a length that is another number: near, far, or such that a sum wraps."""
        bodies, stamps = self.bodies()
        whole = layout(bodies, stamps)
        at = 2 + 12 * self.random.randrange(len(bodies)) + self.pick(0, 4)
        old = struct.unpack_from("<I", whole, at)[0]
        new = old + self.pick(1, -1, 2 ** 31, self.random.randrange(1, 300), -self.random.randrange(1, 300))
        if self.random.random() < 0.3:
            new = self.pick(0, TOP - 1, TOP - 2, TOP - old, TOP - len(whole), self.random.getrandbits(32))
        return self.patched(whole, at, new, "refused 4 at 0" if new % TOP != old else "sound")

    def moved_by(self, bodies, stamps, entry, by):
        """The border between this entry's body and the next one's moved, modulo 2^32."""
        whole = layout(bodies, stamps)
        first = 2 + 12 * entry
        for at, change in ((first + 4, by), (first + 12, by), (first + 16, -by)):
            whole, _ = self.patched(whole, at, struct.unpack_from("<I", whole, at)[0] + change, "")
        return whole

    def wrapped(self):
        """A body far beyond the book; the sums are right again modulo 2^32."""
        bodies, stamps = self.bodies()
        entry = self.random.randrange(len(bodies) - 1)
        most = TOP - 1 - len(bodies[entry])
        return self.moved_by(bodies, stamps, entry, self.pick(2 ** 31, most, self.random.randint(2 ** 16, most))), "refused 4 at 0"

    def moved(self):
        """No gaps, but a border that cuts a body."""
        bodies, stamps = self.bodies()
        return self.moved_by(bodies, stamps, self.random.randrange(len(bodies) - 1), self.pick(1, -1, 2, -2, 5, -5)), "?"

    def cut(self):
        """Cut short or lengthened, contents unchanged."""
        whole = layout(*self.bodies())
        if self.random.random() < 0.3:
            whole += self.random.randbytes(self.random.randrange(1, 9))
            return whole, "refused 2 at 0" if len(whole) > LONGEST else "refused 4 at 0"
        whole = whole[: self.upto(2, len(whole) - 1)]
        return whole, "refused 4 at 0"

    def relations(self):
        bodies, stamps = self.bodies()
        kind = self.random.randrange(4)
        if kind == 0:
            stamps[0] = self.pick(1, 256, 65536, 2 ** 24, TOP - 1)
        elif kind == 1:
            bodies[0] = b""
        elif kind == 2:
            bodies[0] = bytes([1]) * self.upto(33, 40)
        else:
            at = self.random.randrange(len(bodies[0]))
            bodies[0] = bodies[0][:at] + bytes([self.pick(0, 9, 255)]) + bodies[0][at + 1:]
        return layout(bodies, stamps), "refused 5 at 0"

    def broken_rule(self):
        """Refusal 6: a count, relation, tag or variable out of range, an early end, bytes over."""
        arities, stamps, rules = self.a_book()
        which = self.random.randrange(len(rules))
        bodies = [rule_bytes(r) for r in rules]
        head, body = rules[which]
        most = 8 if which else 12
        kind = self.random.randrange(6)
        if kind == 0:
            bodies[which] = bytes([self.upto(9, 255)]) + bodies[which][1:]
        elif kind == 1:
            bodies[which] = bodies[which][:1] + bytes([self.pick(0, most + 1, 255)]) + bodies[which][2:]
        elif kind == 2:
            bodies[which] = bodies[which][: self.random.randrange(len(bodies[which]))]
        elif kind == 3:
            bodies[which] += self.random.randbytes(self.pick(1, 2, 5, 9))
        else:
            bodies[which] = self.wrong_item(arities, head, body, kind == 4)
        return layout([bytes(arities)] + bodies, [0] + stamps), "refused 6 at %d" % (which + 1)

    def whole_but(self):
        """Refusal 6: a whole rule, but with a subgoal too many, with none, or with a head of nine."""
        arities, stamps, rules = self.a_book()
        which = self.random.randrange(len(rules))
        most = 8 if which else 12
        head, body = rules[which]
        widest = arities.index(max(arities))
        kind = self.pick("long", "empty", "nine" if arities[widest] > 1 else "long")
        if kind == "long":
            body = (body * (most + 1))[:most + 1]
        elif kind == "empty":
            head, body = [], []
        else:  # distinct variables, so that nothing else is wrong with a summary
            wide = arities[widest]
            body = [(widest, [(0, wide * i + j) for j in range(wide)]) for i in range(-(-9 // wide))]
            head = [(0, v) for v in range(9)]
        rules[which] = (head, body)
        return layout([bytes(arities)] + [rule_bytes(r) for r in rules], [0] + stamps), "refused 6 at %d" % (which + 1)

    def wrong_item(self, arities, head, body, wrong_relation):
        """The rule's bytes with one relation number or one term out of range."""
        items = [term_bytes(t) for t in head]
        starts = []
        for r, ts in body:
            starts.append(len(items))
            items += [bytes([r])] + [term_bytes(t) for t in ts]
        if wrong_relation:
            items[self.random.choice(starts)] = bytes([self.upto(len(arities), 255)])
        else:
            at = self.random.choice([i for i in range(len(items)) if i not in starts])
            tag = self.upto(2, 255)
            items[at] = self.pick(struct.pack("<BI", tag, self.random.randrange(32)),
                                  struct.pack("<BI", 0, self.pick(32, 33, 255, 256, 2 ** 16, 2 ** 24, 2 ** 31, TOP - 1)))
        return bytes([len(head), len(body)]) + b"".join(items)

    def unsafe(self):
        arities, stamps, rules = self.a_book()
        which = self.random.randrange(len(rules))
        head, body = rules[which]
        free = [v for v in range(32) if all((0, v) not in ts for _, ts in body)]
        at = self.random.randrange(len(head[:7]) + 1)
        head = head[:7][:at] + [(0, self.random.choice(free))] + head[:7][at:]
        if which and self.random.random() < 0.3:
            head[self.random.randrange(len(head))] = head[at]  # perhaps also 8, which comes after 7
        rules[which] = (head, body)
        return layout([bytes(arities)] + [rule_bytes(r) for r in rules], [0] + stamps), "refused 7 at %d" % (which + 1)

    def bad_head(self):
        arities, stamps, rules = self.a_book()
        while len(rules) == 1:
            arities, stamps, rules = self.a_book()
        which = self.random.randrange(1, len(rules))
        head, body = rules[which]
        head = head[:7]
        extra = self.random.choice(head) if head and self.random.random() < 0.5 else (1, self.pick(0, 7, TOP - 1))
        head.insert(self.random.randrange(len(head) + 1), extra)
        rules[which] = (head, body)
        return layout([bytes(arities)] + [rule_bytes(r) for r in rules], [0] + stamps), "refused 8 at %d" % (which + 1)

    # ---- damage made blindly

    def two_rules(self):
        """Faults in two entries at once, or two faults in one."""
        arities, stamps, rules = self.a_book()
        bodies = [rule_bytes(r) for r in rules]
        for _ in range(2):
            which = self.random.randrange(len(rules))
            at = self.random.randrange(len(bodies[which]))
            bodies[which] = bodies[which][:at] + bytes([self.pick(0, 1, 2, 9, 32, 255)]) + bodies[which][at + 1:]
        return layout([bytes(arities)] + bodies, [0] + stamps), "?"

    def flipped(self):
        whole = bytearray(layout(*self.bodies()))
        for _ in range(self.random.randint(1, 4)):
            whole[self.random.randrange(len(whole))] = self.random.getrandbits(8)
        return bytes(whole), "?"

    def noise(self):
        few = self.random.randbytes(self.random.randrange(120))
        return (struct.pack("<H", self.random.randrange(3)) + few if self.random.random() < 0.5 else few), "?"

    def next(self):
        families = [(self.sound, 20), (self.outsize, 3), (self.many, 3), (self.gap, 8), (self.wrapped, 4),
                    (self.cut, 8), (self.relations, 8), (self.broken_rule, 12), (self.whole_but, 3), (self.unsafe, 7), (self.bad_head, 7),
                    (self.moved, 3), (self.two_rules, 8), (self.flipped, 8), (self.noise, 3), (self.largest, 0.3), (self.sixty_five, 0.7)]
        return self.random.choices([f for f, _ in families], [w for _, w in families])[0]()


def main():
    seed, count, books_file, lines_file = int(sys.argv[1]), int(sys.argv[2]), sys.argv[3], sys.argv[4]
    maker = Maker(seed)
    made = [maker.next() for _ in range(count)]
    with open(books_file, "wb") as out:
        out.write(stream(b for b, _ in made))
    with open(lines_file, "w") as out:
        out.writelines(line + "\n" for _, line in made)


if __name__ == "__main__":
    main()
