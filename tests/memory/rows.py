"""The campaigns that sessions and servers are asked for, row by row."""

from tests.campaigns import ASSESSORS, GROUP, ORGANISER, TOPICS, message


def rows_of(asked):
    """Rows of tuples: key, path, body, or None for a GET, and the answer. The number of a POST is its place."""
    rows = []
    for number, (key, path, body, status, text) in enumerate(asked, 1):
        request = message("GET", path, key) if body is None else message("POST", path, key, body, number)
        rows.append((request, (status, text.encode() + b"\n")))
    return rows


def submission(run, docs):
    body = "".join(f"1 Q0 {doc} {rank} {9 - rank} {run}\n" for rank, doc in enumerate(docs, 1))
    return GROUP, f"/runs/{run}", body, 201, f'{{"lines":{len(docs)},"run":"{run}","topics":1}}'


def lease(key, number, doc):
    shown = f'{{"doc":"{doc}","lease":{number},"title":"pooling","topic":"1","until":0}}'
    return key, "/topics/1/lease", "", 201, shown


def grade(key, number, doc, value):
    shown = f'{{"doc":"{doc}","grade":{value},"topic":"1"}}'
    return key, f"/leases/{number}/grade", f'{{"grade":{value}}}', 201, shown


def scores(run, relevant, *values):
    """The scores of a run whose values of map, Rprec, bpref and recip_rank are these."""
    lines = [("num_ret", 3), ("num_rel", 3), ("num_rel_ret", relevant)]
    lines += zip(("map", "Rprec", "bpref", "recip_rank"), values)
    lines += [(f"P_{cut}", f"{relevant / cut:.4f}") for cut in (5, 10, 15, 20, 30, 100, 200, 500, 1000)]
    cell = [f"{run}\t1\t{name}\t{value}" for name, value in lines]
    summary = [f"{run}\tall\t{name}\t{value}" for name, value in [("num_q", 1), *lines]]
    return GROUP, f"/runs/{run}/scores", None, 200, "\n".join(cell + summary)


P, Q = ASSESSORS
OPENED = [
    (ORGANISER, "/topics", TOPICS, 201, '{"topics":1}'),
    submission("X", "abe"),
    submission("Y", "cdf"),
    (ORGANISER, "/open", "", 201, '{"done":true}'),
]
JUDGING = [*OPENED, lease(P, 1, "a"), grade(P, 1, "a", 0), lease(P, 2, "c"), lease(Q, 3, "d")]
GRADES = [("a", 0), ("c", 1), ("d", 0), ("b", 1), ("e", 0), ("f", 2)]
RELEASE = [
    *OPENED,
    *(row for number, given in enumerate(GRADES, 1) for row in (lease(P, number, given[0]), grade(P, number, *given))),
    (P, "/topics/1/lease", "", 409, '{"refusal":"nothing-left"}'),
    (ORGANISER, "/publish", "", 201, '{"done":true}'),
    (GROUP, "/releases/1/qrels", None, 200, "\n".join(f"1 0 {doc} {grade}" for doc, grade in sorted(GRADES))),
    scores("X", 1, "0.1667", "0.3333", "0.2222", "0.5000"),
    scores("Y", 2, "0.5556", "0.6667", "0.5556", "1.0000"),
    (GROUP, "/releases/2/qrels", None, 404, '{"refusal":"unknown-release"}'),
]
