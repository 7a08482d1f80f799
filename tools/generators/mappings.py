"""Expansions and containment mappings, looked for at random, for the makers of triples.

Terms, subgoals and rules are those of book.py. A rewriting's body is a list of subgoals too, with
summary numbers. A hidden variable v of use u (from 0) is (2, u, v).
"""


class Sense:
    """How a mapping is understood. The right one is Sense(); each other one is a mistake that a checker might make."""

    def __init__(self, hidden=lambda use, number, v: (2, use, v), constants_kept=True, head_kept=True, relations_kept=True,
                 is_joined=lambda term: True, alike=lambda term: term, compared=lambda terms: terms):
        self.hidden = hidden  # what stands for a hidden variable
        self.constants_kept, self.head_kept, self.relations_kept = constants_kept, head_kept, relations_kept
        self.is_joined = is_joined  # whether a term of the source has one image wherever it stands
        self.alike = alike  # images that are taken for the same become the same
        self.compared = compared  # which of a subgoal's terms are looked at

    def expansion(self, summaries, rows):
        """The uses, each a list of subgoals. summaries: the rules."""
        uses = []
        for use, (number, terms) in enumerate(rows):
            head, body = summaries[number - 1]
            becomes = dict(zip(head, terms))
            put = lambda t: t if t[0] == 1 else becomes[t] if t in becomes else self.hidden(use, number, t[1])
            uses.append([(r, [put(t) for t in ts]) for r, ts in body])
        return uses

    def bound(self, head):
        return {t: self.alike(t) for t in head} if self.head_kept else {}

    def sent(self, goal, target, bound):
        """What is bound once the subgoal is sent to the target; None where it cannot be."""
        if self.relations_kept and goal[0] != target[0]:
            return None
        more = dict(bound)
        for s, t in zip(self.compared(goal[1]), self.compared(target[1])):
            t = self.alike(t)
            if s[0] == 1 and self.constants_kept:
                image = self.alike(s)
            else:
                image = more.setdefault(s, t) if self.is_joined(s) else t
            if image != t:
                return None
        return more

    def follows(self, source, targets, head):
        """Whether it is a mapping to send each subgoal to the target beside it."""
        bound = self.bound(head)
        for goal, target in zip(source, targets):
            bound = self.sent(goal, target, bound)
            if bound is None:
                return False
        return True

    def mapping(self, random, source, targets, head, steps=300):
        """For each subgoal the place of a target (from 0), as chance has it; None where none is found in so many steps."""
        places, left_steps = [None] * len(source), [steps]

        def place(left, bound):
            if not left:
                return True
            left_steps[0] -= 1
            if left_steps[0] < 0:
                return False
            goal, ways = self.fewest(random.sample(left, min(3, len(left))), source, targets, bound)
            random.shuffle(ways)
            rest = [i for i in left if i != goal]
            for places[goal], more in ways:
                if place(rest, more):
                    return True
            return False

        return places if place(list(range(len(source))), self.bound(head)) else None

    def fewest(self, some, source, targets, bound):
        """Of some subgoals the one that can be sent in the fewest ways, and these."""
        best = None
        for i in some:
            ways = [(k, more) for k, more in enumerate(self.sent(source[i], t, bound) for t in targets) if more is not None]
            if best is None or len(ways) < len(best[1]):
                best = i, ways
        return best


RIGHT = Sense()

# Mistakes. Under each one something is taken for a mapping that is none.
ALONE = Sense(is_joined=lambda term: False)
ANYWHERE = Sense(is_joined=lambda term: False, constants_kept=False)
MISTAKES = {
    "each term by itself": ALONE,
    "hidden variables shared by the uses": Sense(hidden=lambda use, number, v: (2, 0, v)),
    "hidden variables shared by a summary's uses": Sense(hidden=lambda use, number, v: (2, number, v)),
    "hidden variables taken for the rewriting's": Sense(hidden=lambda use, number, v: (0, v)),
    "hidden variables not joined": Sense(is_joined=lambda term: term[0] != 2),
    "constants sent elsewhere": Sense(constants_kept=False),
    "constant n taken for variable n": Sense(alike=lambda term: (0, term[1]) if term[0] == 1 else term),
    "head sent elsewhere": Sense(head_kept=False),
    "relations not compared": Sense(relations_kept=False),
    "last terms not compared": Sense(compared=lambda terms: terms[:-1] or terms),
}
