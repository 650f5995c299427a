# SPDX-License-Identifier: Apache-2.0 OR MIT
"""Writes what was seen into docs/DIFFERENCES.md, each part of it between its two marks."""
from collections import namedtuple

from differences import DIFFERENCES
from wire import Record, read_returns

Run = namedtuple("Run", "version given cases met agree differ")

SHORT = {"BR_TRANSACTION_COMPLETE": "COMPLETE", "BR_CLEAR_DEATH_NOTIFICATION_DONE": "CLEARED", "BR_ONEWAY_SPAM_SUSPECT": "SPAM_SUSPECT"}


def shown(answer):
    """An answer in few words: the returns of a stream by their names."""
    if answer is None or not answer.startswith("got "):
        return answer
    names = [SHORT.get(name, name.removeprefix("BR_")) for name, _ in read_returns(bytes.fromhex(answer.split()[1]))]
    return " ".join(["got", *names])


def fields_apart(first, second):
    """Of two answers with the same returns, which fields of a call or reply differ."""
    one, other = (read_returns(bytes.fromhex(it.split()[1])) for it in (first, second))
    found = {name for (kind, a), (_, b) in zip(one, other) if kind in ("BR_TRANSACTION", "BR_REPLY")
             for name, x, y in zip(Record._fields, a, b) if x != y}
    return sorted(found) or ["data"]


def shown_all(answers, own):
    return ", ".join(shown(its) if seat == own else f"{shown(its)} (seat {seat})" for seat, its in answers or [])


def first_shown(case):
    """The first line of a script that the driver answers otherwise than the rules: its words, and both answers."""
    for rule, line in zip(case.rules, case.expected):
        its = case.answers.lines.get(line.number)
        if line.lowered and rule.answers != its:
            words = line.words if len(line.words) <= 40 else f"{line.words[:36]} .."
            own = its[0][0]
            return words, shown_all(its, own), shown_all(rule.answers, own)
    return "", "", ""


def rows(run):
    by_name = {case.name: case for case in run.cases}
    for name, it in DIFFERENCES.items():
        words, driver, rules = first_shown(by_name[f"kind {name}"])
        yield (f"[{name}](../clients/kernel/kinds/{name}.script)", f"{it.driver} ({it.lines})", it.rules, it.purpose, it.noticed,
               f"`{words}`: {driver}; by the rules {rules}", str(len(run.met[name])))


def text_of(run):
    given, lines = run.given, sum(len(it.rules) for it in run.cases)
    waits = sum(it.script.waits() for it in run.cases)
    numbers = f"--scripts {given.scripts} --long {given.long} --pool {given.pool} --seed {given.seed}"
    head = [f"Seen on {run.version}, by `clients/check kernel {numbers}`:", "",
            f"- {len(run.cases)} scripts with {lines} lines, {waits} of them with threads that wait in a read;",
            f"- in {run.agree} the driver answers as the rules have it, in {run.differ} as the differences below have it, in none otherwise;",
            "- the last column says in how many scripts a difference was needed.", ""]
    columns = ["Name and script", "What the driver does", "What the rules have", "On purpose?", "Who notices", "What its script shows", "Scripts"]
    return "\n".join([*head, *table(columns, rows(run))])


def table(head, lines):
    return [f"| {' | '.join(head)} |", "|---" * len(head) + "|", *(f"| {' | '.join(line)} |" for line in lines)]


def parts(root, part):
    """The document's path, what stands before a part, with its mark, the part, and what stands behind it."""
    path, begin, end = f"{root}/docs/DIFFERENCES.md", f"<!-- {part}: begin -->", f"<!-- {part}: end -->"
    with open(path, encoding="utf-8") as file:
        before, found, rest = file.read().partition(begin)
    text, its_end, after = rest.partition(end)
    if not found or not its_end:
        raise ValueError(f"{path} has no place for {part}")
    return path, before + begin, text.strip("\n"), end + after


def write(root, part, text):
    """Puts a part's text in the place of what stands between its marks."""
    path, before, _, after = parts(root, part)
    with open(path, "w", encoding="utf-8") as file:
        file.write(f"{before}\n{text}\n{after}")


def cells_of(line):
    return [it.strip() for it in line.strip("|").split("|")]


def write_cells(root, part, first, cells):
    """Puts cells, by their columns' names, into the line of a part's table that begins with a cell; others of it stay as they are."""
    path, before, text, after = parts(root, part)
    head, _, *lines = map(cells_of, text.splitlines())
    by_first = {it[0]: it for it in lines}
    line = dict(zip(head, by_first.get(first, [first] + ["not seen"] * (len(head) - 1))))
    by_first[first] = [{**line, **cells}[name] for name in head]
    with open(path, "w", encoding="utf-8") as file:
        file.write("\n".join([before, *table(head, [by_first[it] for it in sorted(by_first)]), after]))
