"""Questions, summaries and rewritings as SQL, and random facts to try them on.

Relation 3 is the table r3, summary 2 the table s2; their columns are c0, c1, ..  Every table has a
column `one` besides, so that an empty head is a row too.
"""
from books.book import read


def columns(count):
    return ["c%d" % i for i in range(count)]


def select(head, body, prefix):
    """A rule as a query: body's subgoals are (number, terms) over tables of that prefix."""
    tables, where, place = [], [], {}
    for i, (number, terms) in enumerate(body):
        tables.append("%s%d t%d" % (prefix, number, i))
        for column, (tag, n) in zip(columns(len(terms)), terms):
            here = "t%d.%s" % (i, column)
            if tag == 1:
                where.append("%s = %d" % (here, n))
            elif n in place:
                where.append("%s = %s" % (here, place[n]))
            else:
                place[n] = here
    shown = ["1 one"] + ["%s %s" % (place[n] if tag == 0 else "%d::bigint" % n, column)
                         for column, (tag, n) in zip(columns(len(head)), head)]
    return "SELECT DISTINCT %s FROM %s%s" % (", ".join(shown), ", ".join(tables), " WHERE " + " AND ".join(where) if where else "")


def rewriting(listing):
    """The subgoals of a listing, (summary, terms); None of a refusal."""
    lines = listing.splitlines()
    at = next((i for i, l in enumerate(lines) if l.startswith("rewriting")), None)
    if at is None:
        return None
    subgoals = []
    for line in lines[at + 1:at + 1 + int(lines[at].split()[1])]:
        words = line.split()
        subgoals.append((int(words[0]), [(0 if w[0] == "v" else 1, int(w[1:])) for w in words[1:]]))
    return subgoals


def facts(random, arities, question, each):
    """Rows for each relation, of few values, so that they join; the question's body holds in some ways."""
    constants = [n for _, ts in question[1] for tag, n in ts if tag == 1]
    values = list(range(3)) + constants + [2 ** 32 + 5]
    out = {r: {tuple(random.choice(values) for _ in range(a)) for _ in range(random.randint(0, each))} for r, a in enumerate(arities)}
    for _ in range(random.randint(0, 3)):
        value = {}
        for r, ts in question[1]:
            out[r].add(tuple(n if tag == 1 else value.setdefault(n, random.choice(values)) for tag, n in ts))
    return out


def tables(arities, rows):
    for r, a in enumerate(arities):
        yield "CREATE TEMP TABLE r%d (%s) ON COMMIT DROP;" % (r, ", ".join(["one int"] + [c + " bigint" for c in columns(a)]))
        if rows[r]:
            yield "INSERT INTO r%d VALUES %s;" % (r, ", ".join("(1, %s)" % ", ".join(map(str, row)) for row in sorted(rows[r])))


def trial(random, a_book, listing, each):
    """One transaction: facts, the summaries that the rewriting reads, and a row of three numbers: how many
    rows the question yields, the rewriting yields, and one of them alone yields."""
    arities, _, question, summaries = read(a_book)
    subgoals = rewriting(listing)
    yield "BEGIN;"
    yield from tables(arities, facts(random, arities, question, each))
    for number in sorted({s for s, _ in subgoals}):
        head, body = summaries[number - 1][1]
        yield "CREATE TEMP TABLE s%d ON COMMIT DROP AS %s;" % (number, select(head, body, "r"))
    q, w = select(question[0], question[1], "r"), select(question[0], subgoals, "s")
    yield ("WITH q AS MATERIALIZED (%s), w AS MATERIALIZED (%s) SELECT (SELECT count(*) FROM q), (SELECT count(*) FROM w), "
           "(SELECT count(*) FROM ((TABLE q EXCEPT TABLE w) UNION ALL (TABLE w EXCEPT TABLE q)) d);" % (q, w))
    yield "COMMIT;"
