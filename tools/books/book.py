"""Books as values, as text and as bytes, for the generators of this folder.

A term is (0, n), variable n, or (1, c), constant c: such pairs sort as the specification says.
A rule is (head, body): a list of terms, and a list of subgoals (relation, terms). Its text is the
specification's: "(X0) from 0(X0,X1), 1(X1,7)", in summaries with A, B, C, .. for X0, X1, X2, ..
"""
import re
import struct

LONGEST = 25040
SHORTEST = 35


def term(text):
    if text[0] == "X" and len(text) > 1:
        return (0, int(text[1:]))
    return (0, ord(text) - ord("A")) if text.isalpha() else (1, int(text))


def terms(text):
    return [term(t.strip()) for t in text.split(",")] if text.strip() else []


def rule(text):
    head, body = text.split(" from ")
    return (terms(head.strip()[1:-1]), [(int(r), terms(ts)) for r, ts in re.findall(r"(\d+)\(([^)]*)\)", body)])


def rule_text(a_rule):
    def named(ts):
        return "(" + ",".join(("X%d" if tag == 0 else "%d") % n for tag, n in ts) + ")"
    return named(a_rule[0]) + " from " + ", ".join("%d%s" % (r, named(ts)) for r, ts in a_rule[1])


def term_bytes(t):
    return struct.pack("<BI", *t)


def rule_bytes(a_rule):
    head, body = a_rule
    out = bytes([len(head), len(body)]) + b"".join(map(term_bytes, head))
    return out + b"".join(bytes([r]) + b"".join(map(term_bytes, ts)) for r, ts in body)


def contents_end(entries):
    return 2 + 12 * entries


def layout(bodies, stamps, count=None):
    """The bodies without gaps, behind the contents that say so. Another count is a lie."""
    out = struct.pack("<H", len(bodies) - 2 if count is None else count)
    at = contents_end(len(bodies))
    for body, stamp in zip(bodies, stamps):
        out += struct.pack("<III", at, len(body), stamp)
        at += len(body)
    return out + b"".join(bodies)


def book(arities, need, question, summaries):
    """question: a rule; summaries: pairs of stamp and rule. Rules may be text."""
    as_rule = lambda r: rule(r) if isinstance(r, str) else r
    bodies = [bytes(arities), rule_bytes(as_rule(question))] + [rule_bytes(as_rule(r)) for _, r in summaries]
    return layout(bodies, [0, need] + [stamp for stamp, _ in summaries])


def read_rule(body, arities):
    at = 2

    def read_term():
        nonlocal at
        at += 5
        return struct.unpack_from("<BI", body, at - 5)

    head = [read_term() for _ in range(body[0])]
    subgoals = []
    for _ in range(body[1]):
        relation = body[at]
        at += 1
        subgoals.append((relation, [read_term() for _ in range(arities[relation])]))
    return (head, subgoals)


def read(a_book):
    """What book() made it of, if it is sound: arities, need, question, pairs of stamp and summary."""
    entries = [struct.unpack_from("<III", a_book, 2 + 12 * i) for i in range(2 + a_book[0])]
    bodies = [a_book[offset:offset + length] for offset, length, _ in entries]
    arities = list(bodies[0])
    rules = [read_rule(b, arities) for b in bodies[1:]]
    stamps = [stamp for _, _, stamp in entries]
    return arities, stamps[1], rules[0], list(zip(stamps[2:], rules[1:]))


def stream(books):
    """Many books, each after its length: what the programs' form for many books takes."""
    return b"".join(struct.pack("<I", len(b)) + b for b in books)


def unstream(data):
    at, out = 0, []
    while at < len(data):
        size = struct.unpack_from("<I", data, at)[0]
        out.append(data[at + 4:at + 4 + size])
        at += 4 + size
    return out


def triple_stream(triples):
    """Many triples of book, rewriting and witness, each after its three lengths: what `judge many` takes."""
    return b"".join(struct.pack("<III", *map(len, parts)) + b"".join(parts) for parts in triples)


def rows(summary, question, most):
    """The summary's rows on the question; more than `most` are not looked for."""
    head, body = summary
    # what is shown first, then what is joined, then the rest: loose subgoals last, they always fit
    joined = lambda g: sum(t in other[1] for t in g[1] for other in body)
    body = sorted(body, key=lambda g: (not any(t in head for t in g[1]), -joined(g), g[0] == 0))
    found = set()

    def completes(i, bound):
        """Adds the rows that complete what is bound; true at once where a row is new and complete."""
        shown = tuple(bound.get(t) for t in head)
        known = None not in shown
        if shown in found or len(found) > most:
            return True
        if i == len(body):
            found.add(shown)
            return True
        relation, terms = body[i]
        any_did = False
        for r, targets in question[1]:
            more = dict(bound)
            if r == relation and all((t if t[0] else more.setdefault(t, u)) == u for t, u in zip(terms, targets)):
                any_did = completes(i + 1, more) or any_did
                if any_did and known:
                    break  # only whether there is a completion counts
        return any_did

    completes(0, {})
    return found
