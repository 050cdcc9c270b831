"""Model against original, row by row and token by token.

The original is asked only where it is a measure: not where 42 or an added
refusal takes the request, and never with a token that 31 takes (it would
allocate every group of `(OH)4294967295`).
"""

import pathlib
import sys

sys.path.insert(0, str(pathlib.Path(__file__).resolve().parents[1] / "model"))

import model  # noqa: E402
import oracle  # noqa: E402

OVERFLOW = b"overflow"  # the original's arithmetic, near 2^32: 01 decides alone


class Difference(Exception):
    """Model and original disagree where no added refusal takes the input, or the
    model breaks demand 3."""


def compare_tokens(tokens):
    """The records of `tokens`, and the places of those that the original gave
    too."""
    answers = [model.show_token(t) for t in tokens]
    asked = [i for i, a in enumerate(answers) if a != b"31"]
    by_original = []
    for i, said in zip(asked, oracle.ask_tokens([tokens[i] for i in asked])):
        if said == OVERFLOW:
            continue
        if said != answers[i]:
            raise Difference(f"token {tokens[i]!r}: model {answers[i]!r}, original {said!r}")
        by_original.append(i)
    return answers, by_original


def may_ask(request, answer):
    if request is None or model.is_added(request, answer.number):
        return False
    texts = (request.class_code, request.tail) + request.tokens
    if any(byte > 127 for text in texts for byte in text):
        return False  # the original takes text, not bytes
    return all(model.show_token(t) != b"31" for t in request.tokens)


def shown(answer):
    """An answer as `oracle requests` prints it."""
    if answer.number:
        return b"refused"
    return b"\t".join((answer.line, model.show_lists(answer.lists), model.show_sites(answer.sites)))


def compare_rows(header, rows):
    """The answers to the rows of a sheet, and the places of those that the
    original gave too.  Demand 3 is checked on every accepted one."""
    names = model.read_header(header)
    requests = [model.read_row(names, r) for r in rows]
    answers = [model.UNREADABLE_ROW if q is None else model.answer(q) for q in requests]
    for row, request, answer in zip(rows, requests, answers):
        wrong = None if answer.number else model.check_demand_3(request, answer)
        if wrong:
            raise Difference(f"row {row!r}: demand 3: {wrong}; line {answer.line!r}")
    asked = [i for i, (q, a) in enumerate(zip(requests, answers)) if may_ask(q, a)]
    by_original = []
    for i, said in zip(asked, oracle.ask_rows(header, [rows[i] for i in asked])):
        if said == OVERFLOW:
            continue
        if said != shown(answers[i]):
            raise Difference(f"row {rows[i]!r}: model {answers[i]!r}, original {said!r}")
        by_original.append(i)
    return answers, by_original
