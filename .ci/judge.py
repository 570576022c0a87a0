"""Judges reports of short jobs from their text alone: the first flaw of a report, or None where it is lawful. It shares
nothing with the programs, and knows of jobs the blocks `seq` and `par`, work, and calls of unnamed objects with numbers."""
import re

CALLS = {"counter": {"add": 1}, "stack": {"push": 1, "pop": 0}, "queue": {"insert": 1, "take": 0},
         "tree": {"insert": 1, "remove": 1, "find": 1, "next": 1}}
NUMBER = r"(0|[1-9][0-9]*)"
HEAD = re.compile(f"workers {NUMBER} leaves {NUMBER} calls {NUMBER} batches {NUMBER}")
CALL = re.compile(f"batch {NUMBER} place {NUMBER} worker {NUMBER} leaf {NUMBER} (\\w+) (\\w+)(?: {NUMBER})? -> (ok|yes|no|empty|{NUMBER})")
ROW = re.compile(f"leaf {NUMBER} worker {NUMBER} start {NUMBER} end {NUMBER} value {NUMBER}")
# The batch order: pushes before pops, questions before updates, inserts before takes; updates of a tree by their keys.
CLASSES = {("counter", "add"): 0, ("stack", "push"): 1, ("stack", "pop"): 2, ("tree", "find"): 3, ("tree", "next"): 3,
           ("tree", "insert"): 4, ("tree", "remove"): 4, ("queue", "insert"): 5, ("queue", "take"): 6}


class Flawed(Exception):
    pass


def need(holds, flaw):
    if not holds:
        raise Flawed(flaw)


def read_job(text):
    """The shape of a job, in which a leaf is its number, and what its leaves do: ("work", n) or (object, verb, number)."""
    words, acts = re.findall(r"[{}]|[^\s{}]+", text), []

    def items():
        found = []
        while words and words[0] != "}":
            word = words.pop(0)
            if word in ("seq", "par"):
                words.pop(0)
                found.append((word, items()))
                words.pop(0)
            else:
                act = (word, int(words.pop(0))) if word == "work" else (word, words.pop(0))
                acts.append(act if word == "work" else (*act, int(words.pop(0)) if CALLS[word][act[1]] else None))
                found.append(len(acts) - 1)
        return found

    return ("seq", items()), acts


def read_report(text):
    """The workers, the calls as (batch, worker, leaf, call, reply), and the rows of a report that is spelled as one."""
    lines = text.split("\n")
    need(lines.pop() == "" and lines, "text")
    head = HEAD.fullmatch(lines[0])
    need(head, "text")
    workers, leaves, calls, batches = map(int, head.groups())
    need(1 <= workers <= 32 and len(lines) == 1 + calls + leaves, "text")
    found, place, batch = [], 0, -1
    for line in lines[1:calls + 1]:
        told = CALL.fullmatch(line)
        need(told and told[5] in CALLS and told[6] in CALLS[told[5]], "text")
        need((told[7] is not None) == bool(CALLS[told[5]][told[6]]), "text")
        batch, place = (batch + 1, 0) if int(told[1]) == batch + 1 else (batch, place + 1)
        need((int(told[1]), int(told[2])) == (batch, place) and batch >= 0, "text")
        found.append((batch, int(told[3]), int(told[4]), (told[5], told[6], told[7] and int(told[7])), told[8]))
    need(batches == batch + 1, "text")
    rows = [ROW.fullmatch(line) for line in lines[calls + 1:]]
    need(all(rows), "text")
    return workers, found, [tuple(map(int, it.groups())) for it in rows]


def check_rows(workers, rows, leaves):
    need([row[0] for row in rows] == list(range(leaves)), "rows")
    need(all(row[1] < workers and row[2] < row[3] for row in rows), "rows")
    need(sorted(tick for row in rows for tick in row[2:4]) == list(range(2 * leaves)), "rows")


def check_order(shape, rows):
    def span(item):
        """The first start and the last end of an item, whose parts are in order."""
        if isinstance(item, int):
            return rows[item][2:4]
        spans = [span(it) for it in item[1]]
        need(item[0] == "par" or all(one[1] < other[0] for one, other in zip(spans, spans[1:])), "order")
        return min(it[0] for it in spans), max(it[1] for it in spans)

    span(shape)
    for one in rows:
        need(all(one is other or one[1] != other[1] or one[3] < other[2] or other[3] < one[2] for other in rows), "order")


def check_calls(acts, calls, rows):
    need(sorted(it[2] for it in calls) == [leaf for leaf, act in enumerate(acts) if act[0] != "work"], "calls")
    need(all(it[3] == acts[it[2]] and it[1] == rows[it[2]][1] for it in calls), "calls")


def reply(content, call):
    """What an object replies to a call, and the objects afterwards, in place."""
    kind, verb, number = call
    if verb == "add":
        content["counter"] += number
        return str(content["counter"])
    held = content[kind]
    if verb in ("push", "insert") and kind != "tree":
        held.append(number)
        return "ok"
    if verb in ("pop", "take"):
        found = held[-1] if kind == "stack" and held else min(held, default=None)
        if found is not None:
            del held[len(held) - 1 if kind == "stack" else held.index(found)]
        return "empty" if found is None else str(found)
    if verb == "next":
        return str(min((it for it in held if it > number), default="empty"))
    there = number in held
    if verb == "insert" and not there:
        held.append(number)
    if verb == "remove" and there:
        held.remove(number)
    return "yes" if there != (verb == "insert") else "no"


def check_replies(calls):
    content = {"counter": 0, "stack": [], "tree": [], "queue": []}
    need(all(reply(content, it[3]) == it[4] for it in calls), "replies")


def check_ticks(calls, rows):
    for one in calls:
        need(all(rows[one[2]][3] > rows[other[2]][2] or one[0] < other[0] for other in calls), "ticks")


def check_batches(calls):
    rank = lambda it: (CLASSES[it[3][:2]], it[3][2] if CLASSES[it[3][:2]] == 4 else 0, it[1])
    for one, other in zip(calls, calls[1:]):
        need(one[0] != other[0] or rank(one) < rank(other), "batches")
    need(len({it[:2] for it in calls}) == len(calls), "batches")


def spin(steps):
    value = steps
    for _ in range(steps):
        value = (5 * value + 1) % 2 ** 32
    return value


def check_values(acts, calls, rows):
    values = {"ok": 0, "empty": 0, "yes": 1, "no": 0}
    due = {leaf: spin(act[1]) for leaf, act in enumerate(acts) if act[0] == "work"}
    due.update({it[2]: int(values.get(it[4], it[4])) for it in calls})
    need(all(row[4] == due[row[0]] for row in rows), "values")


def flaw_of(job, report):
    """The first flaw of a report of a job, both as bytes, or None where it is lawful."""
    shape, acts = read_job(job.decode())
    try:
        workers, calls, rows = read_report(report.decode("latin-1"))
        check_rows(workers, rows, len(acts))
        check_order(shape, rows)
        check_calls(acts, calls, rows)
        check_replies(calls)
        check_ticks(calls, rows)
        check_batches(calls)
        check_values(acts, calls, rows)
    except Flawed as flawed:
        return flawed.args[0]
    return None
