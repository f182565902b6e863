"""What could be changed: the table with one change, and the verdict on it."""
from typing import Iterator, List, Sequence, Tuple

import page
from page import Html, element, number, paragraph, section
from programs import Judged
from report_parts import head_cell, refusal_words
from table import relinked
from texts import RULES


def order_words(order: Sequence[int]) -> str:
    """Positions one after the other; three or more that follow each other as a stretch."""
    found: List[List[int]] = []
    for position in order:
        if found and found[-1][-1] + 1 == position:
            found[-1].append(position)
        else:
            found.append([position])
    return ", ".join(f"{part[0]} to {part[-1]}" if len(part) > 2 else ", ".join(map(str, part)) for part in found)


def changes(judged: Judged, kept: Sequence[int]) -> Iterator[Tuple[str, bytes, List[int]]]:
    """Each change in words, the text of the changed table, and its positions as they are called in this one."""
    word, text, table, late = judged.word, judged.text, judged.table, judged.second
    words, tasks, positions = text.split(), table.tasks, list(range(1, len(table.tasks) + 1))
    other = lambda at, *these: b"".join(one + b"\n" for one in [*words[:at], *(b"%d" % this for this in these), *words[at + len(these):]])
    for rule, name in RULES.items():
        if rule != table.rule:
            yield f"rule {rule} ({name})", other(2, rule), positions
    orders = [("those with fewer cores first", sorted(positions, key=lambda position: sorted((tasks[position - 1].v, tasks[position - 1].w), reverse=True)))]
    if word == "miss":
        orders.append((f"position {table.names.at(late)} first", sorted(positions, key=lambda position: position != late)))
        orders.append(("short deadlines first", sorted(positions, key=lambda position: tasks[position - 1].D)))
    tried = [positions]
    for what, order in orders:
        if order not in tried:
            tried.append(order)
            yield f"the same tasks, {what}: order {order_words(order)}", relinked(text, table.records, order), order
    if word == "miss":
        if table.fenced:
            yield "no fence (the hydraulics give up their cores)", other(3, 0, 0), positions
        if table.cores < 64:
            yield f"{table.cores + 1} cores", other(1, table.cores + 1), positions
        for position in kept if len(positions) > 1 else []:
            rest = [one for one in positions if one != position]
            yield f"without position {table.names.at(position)}", relinked(text, table.records, rest), rest


def change_section(judged: Judged, kept: Sequence[int] = ()) -> Html:
    programs, word, table = judged.programs, judged.word, judged.table
    rows, firm = [element("tr", head_cell("change"), head_cell("verdict"))], False
    programs.wait()
    for what, changed, positions in changes(judged, kept):
        said = programs.verdict(changed)
        if said is None:
            look, answer = "soft", f"not judged after {programs.patience} s"
        elif said.word == "miss":
            look, answer = "bad", f"\u2717 misses: position {table.names.at(positions[said.second - 1])} at tick {table.names.tick(said.first, number)}"
        elif said.word == "refused":
            look, answer = "bad", f"\u2717 refused by number {said.first}: {refusal_words(said.first, positions[said.second - 1] if said.second else 0, table.names)}"
        else:
            look, answer = ("good" if said.word == "firm" else "fair"), f"\u2713 fits: {said.word}, S {number(said.first)}, P {number(said.second)}"
        firm |= look == "good"
        rows.append(element("tr", element("td", what), element("td", answer, class_=look)))
    advice = "A table that misses may also fit with a shorter length C, a later deadline D, a longer period T or another offset O of a task in the conflict." if word == "miss" else \
        "This table is promised to fit only while every job takes its full length. " + ("If jobs can end early, take a change marked firm." if firm else "None of these changes is firm, so none is promised to fit if jobs end early.")
    return section("What could be changed", paragraph("Each line is the same table with this one change, judged by the same proved program. Positions are those of this table.", class_="soft"),
                   page.wide_table(rows, "changes and their verdicts", class_="tried"), paragraph(advice), id="changes")
