#!/usr/bin/env python3
"""judge.py FOLDER: writes the stored run of program `judge`: args, stdin and stdout.

Triples worked out by hand from the specification: book A with its answer and witness, its sheets, and
for each part of the sentence on the checker one that keeps it and one that breaks it. A rewriting is
text as a rule's is, with summary numbers; a witness is text as in a listing. The need and all stamps
are 1 unless said.
"""
import os
import sys

sys.path.insert(0, os.path.dirname(os.path.dirname(os.path.realpath(__file__))))
from generators import largest
from books.book import book, layout, rule, rule_bytes, triple_stream

CASES = []


def as_bytes(rewriting):
    return rewriting if isinstance(rewriting, bytes) else rule_bytes(rule(rewriting))


def witness_of(there, back):
    return bytes(int(n) for n in (there.replace(".", " ") + " " + back).split())


def case(answer, a_book, rewriting, witness):
    CASES.append((answer, (a_book, as_bytes(rewriting), witness)))


def yes(a_book, rewriting, there, back):
    case("yes", a_book, rewriting, witness_of(there, back))


def no(a_book, rewriting, there, back):
    case("no", a_book, rewriting, witness_of(there, back))


def whole(arities, question, *summaries):
    return book(arities, 1, question, [(1, s) for s in summaries])


# ---- book A

def book_a(stamp=4294967289):
    return book([2, 2], 4294967290, "(X0) from 0(X0,X1), 1(X1,7)",
                [(3, "(A,B) from 0(A,B)"), (4294967295, "(A,B) from 1(A,B)"), (stamp, "(A,C) from 0(A,B), 1(B,C)")])


A = book_a()
ANSWER = "(X0) from 1(X0,X1), 2(X1,7)"
WITNESS = witness_of("1.1 2.1", "1 2")

yes(A, ANSWER, "1.1 2.1", "1 2")

# the witness: each number counts from 1 and names a subgoal of the same relation; no byte too many or too few
no(A, ANSWER, "1.1 1.1", "1 2")
no(A, ANSWER, "1.1 2.2", "1 2")
no(A, ANSWER, "1.1 3.1", "1 2")
no(A, ANSWER, "1.0 2.1", "1 2")
no(A, ANSWER, "0.1 2.1", "1 2")
no(A, ANSWER, "1.1 2.1", "2 2")
no(A, ANSWER, "1.1 2.1", "1 3")
no(A, ANSWER, "1.1 2.1", "0 2")
no(A, ANSWER, "1.1 2.1", "1 2 2")
no(A, ANSWER, "1.1 2.1", "1")
case("no", A, ANSWER, b"")

# the rewriting: one whole rule, the question's head, numbers of admitted summaries, terms within the layout
case("no", A, as_bytes(ANSWER) + b"\0", WITNESS)
case("no", A, as_bytes(ANSWER)[:-1], WITNESS)
case("no", A, b"", WITNESS)
case("no", A, rule_bytes(([(0, 0)], [])), b"\1\1\2\1")
no(A, "(X1) from 1(X0,X1), 2(X1,7)", "1.1 2.1", "1 2")
no(A, "(X1) from 1(X1,X0), 2(X0,7)", "1.1 2.1", "1 2")
no(A, "() from 1(X0,X1), 2(X1,7)", "1.1 2.1", "1 2")
no(A, "(X0,X0) from 1(X0,X1), 2(X1,7)", "1.1 2.1", "1 2")
no(A, "(X0) from 0(X0,X1), 1(X1,7)", "1.1 2.1", "1 2")
no(A, "(X0) from 1(X0,X1), 4(X1,7)", "1.1 2.1", "1 2")
no(A, "(X0) from 1(X0,X32), 2(X32,7)", "1.1 2.1", "1 2")
no(A, "(X0) from 1(X0,X1), 2(X1)", "1.1 2.1", "1 2")
case("no", A, as_bytes(ANSWER).replace(b"\1\7", b"\2\7"), WITNESS)

# summary 3 is left out, admitted, has the lowest lead, the highest (after 4294967295 comes 1)
no(A, "(X0) from 3(X0,7)", "1.1 1.2", "1 2")
yes(book_a(4294967290), "(X0) from 3(X0,7)", "1.1 1.2", "1 2")
no(book_a(2147483643), "(X0) from 3(X0,7)", "1.1 1.2", "1 2")
yes(book_a(2147483642), "(X0) from 3(X0,7)", "1.1 1.2", "1 2")

# what need not be: ascending, the question's variables, shortest, distinct
yes(A, "(X0) from 2(X1,7), 1(X0,X1)", "2.1 1.1", "2 1")
yes(A, "(X0) from 1(X0,X9), 2(X9,7)", "1.1 2.1", "1 2")
yes(A, "(X0) from 1(X0,X1), 2(X1,7), 1(X0,X31)", "1.1 2.1", "1 2 1")
yes(A, "(X0) from 1(X0,X1), 2(X1,7), 1(X0,X1)", "1.1 2.1", "1 2 1")
yes(A, "(X0) from 1(X0,X1), 2(X1,7), 1(X0,X1)", "3.1 2.1", "1 2 1")
yes(A, "(X0) from 1(X0,X1), 2(X1,7), 2(X1,X5)", "1.1 2.1", "1 2 2")
no(A, "(X0) from 1(X0,X1), 2(X1,7), 2(X1,X5)", "1.1 3.1", "1 2 2")

# what is no mapping: variables that are not joined, another constant, a constant on a variable, the head elsewhere
no(A, "(X0) from 1(X0,X1), 2(X2,7)", "1.1 2.1", "1 2")
no(A, "(X0) from 1(X0,X1), 2(X1,8)", "1.1 2.1", "1 2")
no(A, "(X0) from 1(X0,X1), 2(X1,X7)", "1.1 2.1", "1 2")
no(A, "(X0) from 1(X1,X0), 2(X0,7)", "1.1 2.1", "1 2")
no(A, "(X0) from 1(X5,X1), 2(X1,7)", "1.1 2.1", "1 2")
no(A, "(X0) from 1(X0,X1), 2(X1,7), 1(X0,7)", "1.1 2.1", "1 2 1")
no(A, "(X0) from 1(X0,X1), 2(X1,7), 1(X0,X0)", "1.1 2.1", "1 2 1")

# ---- sheets

yes(whole([2], "(X0,X2) from 0(X0,X1), 0(X1,X2)", "(A,B) from 0(A,B)"), "(X0,X2) from 1(X0,X1), 1(X1,X2)", "1.1 2.1", "1 2")
yes(whole([2], "(X0) from 0(X0,X1), 0(X0,X2)", "(A) from 0(A,B)"), "(X0) from 1(X0)", "1.1 1.1", "1")
yes(whole([2], "(X0) from 0(X0,X1), 0(X0,X2)", "(A) from 0(A,B)"), "(X0) from 1(X0)", "1.1 1.1", "2")
FOLD = whole([1, 1], "() from 0(X0), 1(X0)", "(A) from 0(A), 0(B), 1(B)")
yes(FOLD, "() from 1(X0)", "1.2 1.3", "1 1 2")
yes(FOLD, "() from 1(X5)", "1.2 1.3", "1 1 2")
no(FOLD, "() from 1(X0)", "1.1 1.3", "1 1 2")

# more than 64 rows: the rewriter refuses the book with 9, and still the rewriting is right
NINE = whole([1], "() from " + ", ".join("0(X%d)" % i for i in range(9)), "(A,B) from 0(A), 0(B)")
yes(NINE, "() from 1(X0,X0)", " ".join(["1.1"] * 9), "1 1")
yes(NINE, "() from 1(X3,X20)", " ".join(["1.1", "1.2"] * 4 + ["1.2"]), "4 9")

# each use has hidden variables of its own, on the way back too
yes(whole([2], "(X0,X2) from 0(X0,X1), 0(X2,X3)", "(A) from 0(A,B)"), "(X0,X2) from 1(X0), 1(X2)", "1.1 2.1", "1 2")
no(whole([2], "(X0,X2) from 0(X0,X1), 0(X2,X1)", "(A) from 0(A,B)"), "(X0,X2) from 1(X0), 1(X2)", "1.1 2.1", "1 2")
# a hidden variable is not the rewriting's variable of that number
no(whole([2, 1], "() from 0(X0,X1), 1(X1)", "(A) from 0(A,B)", "(A) from 1(A)"), "() from 1(X0), 2(X1)", "1.1 2.1", "1 2")

# sheets that were wrong: a hidden street; covered subgoals counted; a constant read as a variable
no(whole([2, 2], "(X0) from 0(X0,X1), 1(X1,7)", "(A) from 0(A,B)", "(A) from 1(A,7)"), "(X0) from 1(X0), 2(X1)", "1.1 2.1", "1 2")
no(whole([1, 2, 1], "() from 0(X0), 1(X0,X1), 2(X1)", "(A) from 0(B), 1(B,A)", "(A) from 1(A,B), 2(B)"),
   "() from 1(X1), 2(X0)", "1.1 1.2 2.2", "1 2 2 3")
no(whole([2], "(X0) from 0(X0,0)", "(A) from 0(A,A)"), "(X0) from 1(X0)", "1.1", "1")

# ---- heads: empty ones, constants, a head variable that the rewriting does not show

yes(whole([1], "() from 0(X0)", "() from 0(A)"), "() from 1()", "1.1", "1")
no(whole([1], "(X0) from 0(X0)", "() from 0(A)"), "(X0) from 1()", "1.1", "1")
CONSTANTS = whole([2], "(7,X31,X31) from 0(X31,4294967295)", "(A,B) from 0(A,B)")
yes(CONSTANTS, "(7,X31,X31) from 1(X31,4294967295)", "1.1", "1")
no(CONSTANTS, "(X7,X31,X31) from 1(X31,4294967295)", "1.1", "1")
no(CONSTANTS, "(X31,X31,7) from 1(X31,4294967295)", "1.1", "1")

# ---- how many subgoals: 12 are allowed, 13 not; the longest of all three

ONE = whole([1], "() from 0(X0)", "(A) from 0(A)")
for count, answer in ((12, "yes"), (13, "no")):
    case(answer, ONE, "() from " + ", ".join(["1(X0)"] * count), witness_of("12.1", " ".join(["1"] * count)))

longest = largest.triple(largest.BOOK, 1)
assert [len(part) for part in longest] == [25040, 534, 120]
case("yes", *longest)
case("no", *longest[:2], longest[2][:-1] + bytes([largest.BACK[-1] + 1]))
for which in range(3):
    case("no", *(part + b"\0" * (i == which) for i, part in enumerate(longest)))

# ---- the book must load, the summaries that have no say with it

case("no", b"", as_bytes(ANSWER), WITNESS)
case("no", A[:-1], as_bytes(ANSWER), WITNESS)
case("no", A + b"\0", as_bytes(ANSWER), WITNESS)
case("no", b"", b"", b"")
case("no", layout([b"\1"] + [rule_bytes(rule("() from 0(X0)"))] * 66, [0] + [1] * 66), "() from 1()", b"\1\1\1")
for answer, left_out in (("yes", "(A) from 0(A)"), ("no", "(B) from 0(A)"), ("no", "(7) from 0(A)"), ("no", "(A,A) from 0(A)"), ("no", "(A) from 1(A)")):
    case(answer, book([1], 1, "(X0) from 0(X0)", [(1, "(A) from 0(A)"), (0, left_out)]), "(X0) from 1(X0)", b"\1\1\1")
case("no", layout([b"\1", rule_bytes(rule("(X0) from 0(X0)")), rule_bytes(rule("(A) from 0(A)"))], [1, 1, 1]), "(X0) from 1(X0)", b"\1\1\1")

# ---- stamps: across the end of the ring, never filled, and under a need of 0, which admits every stamp but 0

for answer, need, stamp in (("yes", 4294967295, 1), ("yes", 4294967295, 2147483647), ("no", 4294967295, 2147483648), ("no", 1, 4294967295),
                            ("no", 4294967295, 0), ("no", 0, 0), ("yes", 0, 1), ("yes", 0, 4294967295)):
    case(answer, book([1], need, "(X0) from 0(X0)", [(stamp, "(A) from 0(A)")]), "(X0) from 1(X0)", b"\1\1\1")


def main():
    folder = sys.argv[1]
    for name, content in (("args", b"many\n"), ("stdin", triple_stream(triple for _, triple in CASES)),
                          ("stdout", "".join(answer + "\n" for answer, _ in CASES).encode())):
        with open(os.path.join(folder, name), "wb") as out:
            out.write(content)


main()
