#!/usr/bin/env python3
"""sound.py FOLDER: writes the stored run of program `sound`: args, stdin and stdout.

Every line of stdout stands here beside the book that must give it, written by hand from the
specification: first and last value of every bound, each refusal several times, the order of faults.
"""
import os
import struct
import sys

sys.path.insert(0, os.path.dirname(os.path.dirname(os.path.realpath(__file__))))
from books.book import LONGEST, SHORTEST, book, layout, rule, rule_bytes, stream, term_bytes

TOP = 2 ** 32
CASES = []


def case(line, what, a_book):
    CASES.append((line, what, a_book))


def chain(count, relation=0):
    """() from r(X0,X1), r(X1,X2), ..: so many subgoals of arity 2."""
    return "() from " + ", ".join("%d(X%d,X%d)" % (relation, i, i + 1) for i in range(count))


def with_question(body_bytes, arities=(2, 2)):
    return layout([bytes(arities), body_bytes], [0, 1])


def with_summary(body_bytes, arities=(2, 2)):
    return layout([bytes(arities), rule_bytes(rule("() from 0(X0,X1)")), body_bytes], [0, 1, 1])


def raw_rule(head, body, head_count=None, body_count=None):
    """The bytes of a rule whose terms are (tag, number) as they come, and whose counts may lie."""
    out = bytes([len(head) if head_count is None else head_count, len(body) if body_count is None else body_count])
    out += b"".join(map(term_bytes, head))
    return out + b"".join(bytes([r]) + b"".join(map(term_bytes, ts)) for r, ts in body)


def patched(a_book, at, number):
    return a_book[:at] + struct.pack("<I", number) + a_book[at + 4:]


A = book([2, 2], 4294967290, "(X0) from 0(X0,X1), 1(X1,7)",
         [(3, "(A,B) from 0(A,B)"), (4294967295, "(A,B) from 1(A,B)"), (4294967289, "(A,C) from 0(A,B), 1(B,C)")])
FEW = rule_bytes(rule("() from 0(X0)"))
SHORT = book([1], 0, "() from 0(X0)", [])
EIGHT = "0(A,B,C,D,E,F,G,H)"
LONG = book([8] * 32, 1, "(A,B,C,D,E,F,G,H) from " + ", ".join([EIGHT] * 12),
            [(1, "(A,B,C,D,E,F,G,H) from " + ", ".join([EIGHT] * 8))] * 64)
assert (len(A), len(SHORT), len(LONG)) == (173, SHORTEST, LONGEST)

case("sound", "book A", A)
case("sound", "the shortest", SHORT)
case("sound", "the longest", LONG)

# 2: the length
case("refused 2 at 0", "no byte", b"")
case("refused 2 at 0", "one byte", b"\0")
case("refused 4 at 0", "two bytes are enough for a count", b"\0\0")
case("refused 3 at 0", "two bytes, a count of 65", b"\x41\0")
case("refused 2 at 0", "25,041 bytes", LONG + b"\0")
case("refused 2 at 0", "25,041 bytes, and contents that say so", layout([b"\1", FEW, bytes(LONGEST + 1 - 47)], [0, 1, 1]))
case("refused 2 at 0", "twice as many", LONG + LONG)

# 3: the count
case("sound", "n = 64", layout([b"\1"] + [FEW] * 65, [0] * 66))
case("refused 3 at 0", "n = 65, all else right", layout([b"\1"] + [FEW] * 66, [0] * 67))
case("refused 3 at 0", "n = 65,535", layout([b"\1", FEW], [0, 1], 65535))
case("refused 3 at 0", "n = 256: the second byte counts", layout([b"\1", FEW], [0, 1], 256))
case("sound", "n = 0", layout([b"\1", FEW], [0, 1]))

# 4: the contents. Entry 0 of book A stands at 2: offset 62, length 2; entry 1 at 14: 64, 29.
case("refused 4 at 0", "ends inside the contents", A[:61])
case("refused 4 at 0", "ends with the contents", A[:62])
case("refused 4 at 0", "the last body cut", A[:-1])
case("refused 4 at 0", "a byte behind the last body", A + b"\0")
case("refused 4 at 0", "first body begins late", patched(A, 2, 63))
case("refused 4 at 0", "first body begins early", patched(A, 2, 61))
case("refused 4 at 0", "a gap", patched(A, 14, 65))
case("refused 4 at 0", "an overlap", patched(A, 14, 63))
case("refused 4 at 0", "a length too long", patched(A, 6, 3))
case("refused 4 at 0", "a length too short", patched(A, 6, 1))
case("refused 4 at 0", "last length too long", patched(A, 54, 35))
case("refused 4 at 0", "an offset of 4,294,967,295", patched(A, 14, TOP - 1))
case("refused 4 at 0", "a length of 4,294,967,295", patched(A, 18, TOP - 1))
case("refused 4 at 0", "a length that comes round to the next offset",
     patched(patched(patched(A, 6, TOP - 62), 14, 0), 18, 93))
case("refused 4 at 0", "offset and length at the end of all numbers", patched(patched(A, 50, TOP - 1), 54, TOP - 1))
case("refused 4 at 0", "4 before 5: a gap, and an arity 0", patched(layout([b"\0", FEW], [0, 1]), 14, 99))
case("refused 6 at 1", "no gap, but the border between two bodies moved",
     patched(patched(patched(A, 18, 30), 26, 94), 30, 22))

# 5: the relations
case("refused 5 at 0", "relations stamp 1", layout([b"\1", FEW], [1, 1]))
case("refused 5 at 0", "relations stamp in its last byte", layout([b"\1", FEW], [2 ** 24, 1]))
case("refused 5 at 0", "no relation", layout([b"", FEW], [0, 1]))
case("sound", "32 relations", book([1] * 32, 1, "() from 31(X0)", []))
case("refused 5 at 0", "33 relations", layout([b"\1" * 33, FEW], [0, 1]))
case("refused 5 at 0", "arity 0", layout([b"\1\0", FEW], [0, 1]))
case("refused 5 at 0", "arity 9", layout([b"\1\x09", FEW], [0, 1]))
case("refused 5 at 0", "arity 255, the first", layout([b"\xff\1", FEW], [0, 1]))
case("sound", "arities 1 and 8", book([1, 8], 1, "() from 0(A), 1(A,B,C,D,E,F,G,H)", []))
case("refused 5 at 0", "5 before 6", layout([b"\0", b""], [0, 1]))

# 6: the counts of a rule
case("sound", "head of 8", book([8], 1, "(A,B,C,D,E,F,G,H) from " + EIGHT, [(1, "(A,B,C,D,E,F,G,H) from " + EIGHT)]))
nine = [(0, 0)] * 9
case("refused 6 at 1", "question's head of 9", with_question(raw_rule(nine, [(0, nine[:2])])))
case("refused 6 at 2", "summary's head of 9", with_summary(raw_rule([(0, v) for v in range(9)], [(0, [(0, 0), (0, 1)])])))
case("sound", "question of 12 subgoals", book([2], 1, chain(12), []))
case("refused 6 at 1", "question of 13", book([2], 1, chain(13), []))
case("refused 6 at 1", "question of none", with_question(raw_rule([], [])))
case("sound", "summary of 8 subgoals", book([2], 1, chain(1), [(1, chain(8))]))
case("refused 6 at 2", "summary of 9", book([2], 1, chain(1), [(1, chain(9))]))
case("refused 6 at 2", "summary of 12", book([2], 1, chain(1), [(1, chain(12))]))
case("refused 6 at 2", "summary of none", with_summary(raw_rule([], [])))
case("refused 6 at 1", "255 and 255", with_question(b"\xff\xff"))

# 6: relation, tag, variable
case("sound", "the last relation", book([2, 2, 2], 1, "() from 2(X0,X1)", []))
case("refused 6 at 1", "a relation past the last", with_question(raw_rule([], [(2, [(0, 0), (0, 1)])])))
case("refused 6 at 2", "relation 255", with_summary(raw_rule([], [(255, [(0, 0), (0, 1)])])))
case("refused 6 at 1", "tag 2", with_question(raw_rule([], [(0, [(2, 0), (0, 1)])])))
case("refused 6 at 1", "tag 255 in the head", with_question(raw_rule([(255, 0)], [(0, [(0, 0), (0, 1)])])))
case("sound", "variable 31", book([2], 1, "(X31) from 0(X0,X31)", []))
case("refused 6 at 1", "variable 32", with_question(raw_rule([], [(0, [(0, 32), (0, 1)])])))
case("refused 6 at 1", "variable 32 in the head", with_question(raw_rule([(0, 32)], [(0, [(0, 0), (0, 1)])])))
case("refused 6 at 1", "variable 256: all four bytes count", with_question(raw_rule([], [(0, [(0, 256), (0, 1)])])))
case("refused 6 at 2", "variable 2^24", with_summary(raw_rule([], [(0, [(0, 2 ** 24), (0, 1)])])))
case("refused 6 at 1", "variable 4,294,967,295", with_question(raw_rule([], [(0, [(0, TOP - 1), (0, 1)])])))
case("sound", "constants 0, 32 and 4,294,967,295", book([3], 1, "(0,X0) from 0(X0,32,4294967295), 0(0,0,0)", []))

# 6: the end of a rule
whole = rule_bytes(rule("(X0) from 0(X0,X1)"))
case("refused 6 at 1", "no byte", with_question(b""))
case("refused 6 at 1", "one byte", with_question(whole[:1]))
case("refused 6 at 1", "ends before the head", with_question(whole[:2]))
case("refused 6 at 1", "ends inside a number", with_question(whole[:5]))
case("refused 6 at 1", "ends behind a tag", with_question(whole[:3]))
case("refused 6 at 1", "ends before the subgoal", with_question(whole[:7]))
case("refused 6 at 1", "ends before the last byte", with_question(whole[:-1]))
case("refused 6 at 1", "one byte over", with_question(whole + b"\0"))
case("refused 6 at 2", "one byte over in a summary", with_summary(whole + b"\0"))
case("refused 6 at 2", "a whole term over", with_summary(whole + term_bytes((0, 0))))
case("refused 6 at 65", "the last of 64 summaries", layout([b"\1"] + [FEW] * 64 + [FEW + b"\0"], [0] * 66))

# 7 and 8, and which comes first
case("refused 7 at 1", "the question's head variable is in no subgoal", with_question(rule_bytes(rule("(X2) from 0(X0,X1)"))))
case("refused 7 at 1", "the last of eight", with_question(rule_bytes(rule("(X0,X0,X0,X0,X0,X0,X0,X31) from 0(X0,X1)"))))
case("refused 7 at 1", "a constant of that number is no variable", with_question(rule_bytes(rule("(X7) from 0(X0,7)"))))
case("sound", "a constant in the question's head", with_question(rule_bytes(rule("(9,X1,X1) from 0(X0,X1)"))))
case("refused 7 at 2", "a summary's head variable", with_summary(rule_bytes(rule("(A,C) from 0(A,B)"))))
case("refused 8 at 2", "a constant in a summary's head", with_summary(rule_bytes(rule("(A,0) from 0(A,B)"))))
case("refused 8 at 2", "a constant 4,294,967,295 first", with_summary(rule_bytes(rule("(4294967295,A) from 0(A,B)"))))
case("refused 8 at 2", "a variable twice", with_summary(rule_bytes(rule("(A,A) from 0(A,B)"))))
case("refused 8 at 2", "a variable twice, first and last", with_summary(rule_bytes(rule("(A,B,A) from 0(A,B)"))))
case("sound", "a summary with an empty head", with_summary(rule_bytes(rule("() from 0(A,B)"))))
case("refused 7 at 2", "7 before 8", with_summary(rule_bytes(rule("(A,A,C) from 0(A,B)"))))
case("refused 6 at 2", "6 before 7 and 8", with_summary(rule_bytes(rule("(A,A,C) from 0(A,B)")) + b"\0"))
good = (1, "(A,B) from 0(A,B)")
case("refused 8 at 3", "the second summary", book([2], 1, "() from 0(X0,X1)", [good, (1, "(A,A) from 0(A,B)"), good]))
case("refused 7 at 3", "a later entry's 6 does not come first",
     layout([b"\2"] + [rule_bytes(rule(r)) for r in ("() from 0(A,B)", "(A,B) from 0(A,B)", "(A,C) from 0(A,B)")] + [b""],
            [0, 1, 1, 1, 1]))
case("refused 8 at 2", "an earlier 8 before a later 7", book([2], 1, "() from 0(X0,X1)", [(1, "(7) from 0(A,B)"), (1, "(C) from 0(A,B)")]))
case("refused 7 at 1", "the question before every summary", book([2], 1, "(X5) from 0(X0,X1)", [(1, "(A,A) from 0(A,B)")]))
case("refused 8 at 65", "the last of 64 summaries", book([2], 1, "() from 0(X0,X1)", [good] * 63 + [(1, "(A,A) from 0(A,B)")]))

# stamps are any number, and a summary that is left out must be sound too
case("sound", "need and stamps at their ends", book([2], TOP - 1, "() from 0(X0,X1)", [(0, good[1]), (TOP - 1, good[1])]))
case("refused 7 at 2", "a fault in a summary that is left out", book([2], 2, "() from 0(X0,X1)", [(1, "(C) from 0(A,B)")]))


def main():
    folder = sys.argv[1]
    for name, content in (("args", b"many\n"), ("stdin", stream(b for _, _, b in CASES)),
                          ("stdout", "".join(line + "\n" for line, _, _ in CASES).encode())):
        with open(os.path.join(folder, name), "wb") as out:
            out.write(content)


main()
