#!/usr/bin/env python3
"""rewrite.py FOLDER: writes the stored run of program `rewrite`: args, stdin and stdout.

The specification's listing given whole, its sheets to try and its sheets that were wrong, and a few
more. What each must print stands here beside the book, written by hand from the specification:
witnesses that it does not tell are worked out by hand. The need and all stamps are 1 unless said.
"""
import os
import sys

sys.path.insert(0, os.path.dirname(os.path.dirname(os.path.realpath(__file__))))
from generators import largest
from books.book import book, layout, rule, rule_bytes, stream

CASES = []


def case(text, a_book):
    CASES.append((text, a_book))


def whole(arities, question, *summaries):
    return book(arities, 1, question, [(1, s) for s in summaries])


def listing(summaries, answer, there, back):
    """The listing where the need and all stamps are 1: answer is a line for each subgoal."""
    views = "".join("view %d lead 0\n" % (i + 1) for i in range(summaries))
    lines = ["rewriting %d" % len(answer)] + answer + ["there " + there, "back " + back]
    return "need 1\n" + views + "\n".join(lines) + "\n"


def refused(number, place=0):
    return "refused %d at %d\n" % (number, place)


# ---- the listing given whole

def book_a(stamp):
    return book([2, 2], 4294967290, "(X0) from 0(X0,X1), 1(X1,7)",
                [(3, "(A,B) from 0(A,B)"), (4294967295, "(A,B) from 1(A,B)"), (stamp, "(A,C) from 0(A,B), 1(B,C)")])


case("""need 4294967290
view 1 lead 8
view 2 lead 5
view 3 lead -1
rewriting 2
1 v0 v1
2 v1 c7
there 1.1 2.1
back 1 2
""", book_a(4294967289))

# ---- sheets to try

case("""need 4294967290
view 1 lead 8
view 2 lead 5
view 3 lead 0
rewriting 1
3 v0 c7
there 1.1 1.2
back 1 2
""", book_a(4294967290))

# Source 000, example 4.1: a is relation 0, b is 1; X, Y, Z are 0, 1, 2.
case(listing(2, ["1 v0 v2", "2 v2 v1"], "1.1 1.2 2.2", "1 2 2 3"),
     whole([2, 2], "(X0,X1) from 0(X0,X2), 0(X2,X2), 1(X2,X1)", "(A,B) from 0(A,B), 0(B,B)", "(A,B) from 0(A,C), 1(A,B)"))

# Source 000, car-loc-part: car is 0, loc 1, part 2, anderson the constant 5; M, C, S are 0, 1, 2.
CARS = "(X2,X1) from 0(X0,5), 1(5,X1), 2(X2,X0,X1)"
V1 = V5 = "(A,B,C) from 0(A,B), 1(B,C)"
V2 = "(A,B,C) from 2(A,B,C)"
V3 = "(A) from 0(B,5), 1(5,C), 2(A,B,C)"
V4 = "(A,B,C,D) from 0(A,B), 1(B,C), 2(D,A,C)"
case(listing(5, ["4 v0 c5 v1 v2"], "1.1 1.2 1.3", "1 2 3"), whole([2, 2, 3], CARS, V1, V2, V3, V4, V5))
case(listing(4, ["1 v0 c5 v1", "2 v2 v0 v1"], "1.1 1.2 2.1", "1 2 3"), whole([2, 2, 3], CARS, V1, V2, V3, V5))
case(refused(10), whole([2, 2, 3], CARS, V1, V3, V5))

case(listing(1, ["1 v0 v1", "1 v1 v2"], "1.1 2.1", "1 2"), whole([2], "(X0,X2) from 0(X0,X1), 0(X1,X2)", "(A,B) from 0(A,B)"))
case(listing(1, ["1 v0"], "1.1 1.1", "1"), whole([2], "(X0) from 0(X0,X1), 0(X0,X2)", "(A) from 0(A,B)"))
case(listing(1, ["1 v0"], "1.2 1.3", "1 1 2"), whole([1, 1], "() from 0(X0), 1(X0)", "(A) from 0(A), 0(B), 1(B)"))


def stamped(need, *stamps):
    """Any of the summaries answers the question, if its stamp lets it."""
    return book([1], need, "() from 0(X0)", [(s, "(A) from 0(A)") for s in stamps])


def stamped_listing(need, leads, chosen):
    views = "".join("view %d lead %s\n" % (i + 1, lead) for i, lead in enumerate(leads.split()))
    return "need %d\n%srewriting 1\n%d v0\nthere 1.1\nback 1\n" % (need, views, chosen)


# leads against need 1: the highest, the lowest, and none
case(stamped_listing(1, "2147483647 -2147483647 none", 1), stamped(1, 2147483648, 2147483649, 0))
case(refused(10), stamped(1, 2147483649, 0))


def loose(count):
    return "() from " + ", ".join("0(X%d)" % i for i in range(count))


PAIR = "(A,B) from 0(A), 0(B)"
case(listing(1, ["1 v0 v0"], " ".join(["1.1"] * 8), "1 1"), whole([1], loose(8), PAIR))
case(refused(9), whole([1], loose(9), PAIR))

case(refused(10), whole([1], "() from 0(X0)"))
case(refused(2), b"\0")
case(refused(3), layout([b"\1"] + [rule_bytes(rule("() from 0(X0)"))] * 66, [0] + [1] * 66))

# ---- sheets that were wrong

# a: joining over a hidden street
case(refused(10), whole([2, 2], "(X0) from 0(X0,X1), 1(X1,7)", "(A) from 0(A,B)", "(A) from 1(A,7)"))
# b: counting covered subgoals
case(refused(10), whole([1, 2, 1], "() from 0(X0), 1(X0,X1), 2(X1)", "(A) from 0(B), 1(B,A)", "(A) from 1(A,B), 2(B)"))


def unary(*relations):
    return "(X0) from " + ", ".join("%d(X0)" % r for r in relations)


# c: taking the largest first
case(listing(3, ["2 v0", "3 v0"], "1.1 1.2 2.1 2.2 1.3 2.3", "1 2 5 3 4 6"),
     whole([1] * 6, unary(0, 1, 2, 3, 4, 5), unary(0, 1, 2, 3), unary(0, 1, 4), unary(2, 3, 5)))
# d: reading a constant as a variable
case(refused(10), whole([2], "(X0) from 0(X0,0)", "(A) from 0(A,A)"))
# e: comparing refresh numbers without the wrap: the larger stamp is the older one
case(stamped_listing(2, "-2 3", 2), stamped(2, 4294967295, 5))

# ---- the largest answer and the longest witness, 534 and 120 bytes: summary i shows relation i, and hides seven more

case(listing(12, ["%d v0 v1 v2 v3 v4 v5 v6 v7" % (i + 1) for i in range(12)],
             " ".join("%d.%d" % pair for pair in largest.THERE), " ".join(map(str, largest.BACK))), largest.book_of(12, 12))

# ---- terms: an empty head, the largest constant, a constant in the question's head

case(listing(1, ["1"], "1.1", "1"), whole([1], "() from 0(X0)", "() from 0(A)"))
case(listing(1, ["1 v31 c4294967295"], "1.1", "1"), whole([2], "(7,X31,X31) from 0(X31,4294967295)", "(A,B) from 0(A,B)"))
# variables come before constants, whatever their numbers: of the rows 1(X9), 1(0) the first is the first subgoal's
case(listing(1, ["1 v9", "1 c0"], "2.1 1.1", "2 1"), whole([1], "(X9) from 0(0), 0(X9)", "(A) from 0(A)"))
# of two rows that would each do, the lesser variable's
case(listing(1, ["1 v1"], "1.1 1.1", "1"), whole([1], "() from 0(X2), 0(X1)", "(A) from 0(A)"))

# ---- summaries that are left out have no say, but must be sound

case(listing(1, ["1 v0"], "1.1", "1").replace("view 1 lead 0\n", "view 1 lead 0\nview 2 lead -1\n"),
     book([1], 1, "(X0) from 0(X0)", [(1, "(A) from 0(A)"), (4294967295, "(A) from 0(A)")]))
case(listing(1, ["1 v0 v0"], " ".join(["1.1"] * 8), "1 1").replace("view 1 lead 0\n", "view 1 lead 0\nview 2 lead -1\n"),
     book([1], 1, loose(8), [(1, PAIR), (4294967295, PAIR)]))
case(refused(7, 3), book([1], 1, "(X0) from 0(X0)", [(1, "(A) from 0(A)"), (0, "(B) from 0(A)")]))

# ---- which refusal comes first

case(refused(8, 3), whole([1], loose(9), PAIR, "(A,A) from 0(A)"))
case(refused(6, 1), layout([b"\1", b"", rule_bytes(rule("(B) from 0(A)"))], [0, 1, 1]))
case(refused(5), layout([b"\0", b""], [0, 1]))
case(refused(4), book_a(1)[:-1])

# ---- stamps round the ring: after 4,294,967,295 comes 1

case(stamped_listing(4294967295, "1 -1 2147483647 -2147483647", 1), stamped(4294967295, 1, 4294967294, 2147483647, 2147483648))
case(stamped_listing(1, "-1 -2 -2147483647 0", 4), stamped(1, 4294967295, 4294967294, 2147483649, 1))
case(stamped_listing(2147483649, "2147483647 -2147483647 -2147483647 2147483647", 1), stamped(2147483649, 1, 2, 2, 1))
# the furthest that is still ahead, across the end; one step further
case(stamped_listing(4294967295, "2147483647", 1), stamped(4294967295, 2147483647))
case(refused(10), stamped(4294967295, 2147483648))
# 0 marks a summary never filled, whatever the need, also where a ring with a 0 would have it just ahead
case(refused(10), stamped(4294967295, 0))
case(stamped_listing(4294967295, "none 0", 2), stamped(4294967295, 0, 4294967295))
# a need of 0 admits every stamp but 0
case(stamped_listing(0, "none 0 0 0 0", 2), stamped(0, 0, 1, 2147483648, 2147483649, 4294967295))
case(stamped_listing(0, "0", 1), stamped(0, 4294967295))
case(refused(10), stamped(0, 0))
case(refused(7, 2), book([1], 0, "() from 0(X0)", [(0, "(B) from 0(A)")]))


def main():
    folder = sys.argv[1]
    for name, content in (("args", b"many\n"), ("stdin", stream(b for _, b in CASES)),
                          ("stdout", "".join(text for text, _ in CASES).encode())):
        with open(os.path.join(folder, name), "wb") as out:
            out.write(content)


main()
