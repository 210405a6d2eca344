#!/usr/bin/env python3
"""Makes a page of one file, without a network, of a report that `cellaware` wrote.

usage: report_page.py REPORT.csv [--title TEXT] > report.html

The report is one of `atpg`, `grade` or `bridges`. The page has the verdicts in all, by cell and by instance, and a table of the
defects that no pair shows though they can be exposed in their cell (the aborted, untestable and uncredited ones), or of the
bridges for which a search found nothing or wasn't made (aborted, untestable, wide). A click on a column's head sorts by it, and
a word in the field above a table keeps the records that have it. Python 3.9 or later, no packages.
"""
import argparse
import collections
import csv
import html
import sys

ORDER = ["credited", "unexposable", "untestable", "aborted", "uncredited", "port", "wide"]
COLOURS = {"credited": "#3a8f4d", "unexposable": "#b9bec4", "untestable": "#6f8fb8", "aborted": "#d08a2e",
           "uncredited": "#c2504a", "port": "#8a7fb0", "wide": "#55565a"}
MISSED = {"defect": "Exposable defects that no pair shows", "bridge": "Bridges that no pair was found for, or that are too wide to search"}
STYLE = """
body { font: 15px/1.45 system-ui, sans-serif; margin: 2rem auto; max-width: 72rem; padding: 0 1rem; color: #1d1f21; }
h1 { font-size: 1.4rem } h2 { font-size: 1.1rem; margin-top: 2rem }
table { border-collapse: collapse; width: 100%; font-size: 14px }
th, td { padding: .25rem .6rem; text-align: left; border-bottom: 1px solid #e3e5e8; white-space: nowrap }
th { cursor: pointer; background: #f4f5f6; position: sticky; top: 0 }
td.n, th.n { text-align: right; font-variant-numeric: tabular-nums }
.bar { display: flex; height: 1rem; width: 10rem; background: #f4f5f6 } .bar i { display: block; height: 100% }
.key span { display: inline-block; margin-right: 1.2rem } .key b { display: inline-block; width: .8rem; height: .8rem; margin-right: .35rem }
.box { max-height: 34rem; overflow: auto; border: 1px solid #e3e5e8 } input { padding: .3rem .5rem; margin: .4rem 0; width: 20rem }
"""
SCRIPT = """
document.querySelectorAll('table').forEach(table => {
  const body = table.tBodies[0];
  table.querySelectorAll('th').forEach((head, column) => head.onclick = () => {
    const down = head.dataset.down !== '1'; head.dataset.down = down ? '1' : '0';
    const key = row => row.cells[column].dataset.key ?? row.cells[column].textContent;
    const rows = [...body.rows].sort((a, b) => key(a).localeCompare(key(b), undefined, {numeric: true}) * (down ? 1 : -1));
    body.append(...rows);
  });
  const field = table.closest('section').querySelector('input');
  if (field) field.oninput = () => { for (const row of body.rows)
    row.hidden = !row.textContent.toLowerCase().includes(field.value.toLowerCase()); };
});
"""


def bar(counts, verdicts):
    whole = sum(counts.values()) or 1
    parts = "".join(f'<i style="width:{100 * counts[it] / whole:.2f}%;background:{COLOURS[it]}" title="{it} {counts[it]}"></i>'
                    for it in verdicts if counts[it])
    return f'<div class="bar">{parts}</div>'


def share(counts):
    """How much of what can be exposed is credited, in percent. Of a bridge between ports and of a wide one it isn't known."""
    exposable = sum(counts.values()) - counts["unexposable"] - counts["port"] - counts["wide"]
    return f"{100 * counts['credited'] / exposable:.1f}" if exposable else ""


def table(heads, rows):
    """A table of rows of texts; a column of numbers is aligned to the right."""
    number = [all(row[k][1] for row in rows) for k in range(len(heads))] if rows else [False] * len(heads)
    mark = lambda k: ' class="n"' if number[k] else ""
    head = "".join(f"<th{mark(k)}>{html.escape(it)}</th>" for k, it in enumerate(heads))
    body = "".join("<tr>" + "".join(f"<td{mark(k)}>{text}</td>" for k, (text, _) in enumerate(row)) + "</tr>\n" for row in rows)
    return f"<table><thead><tr>{head}</tr></thead><tbody>\n{body}</tbody></table>"


def counted(found, verdicts, first, what):
    """A table of counts by cell or instance."""
    heads = first + [what, *verdicts, "% credited of exposable", ""]
    rows = []
    for key, counts in found.items():
        names = [(html.escape(it), False) for it in key]
        numbers = [(str(sum(counts.values())), True)] + [(str(counts[it]), True) for it in verdicts]
        rows.append(names + numbers + [(share(counts), True), (bar(counts, verdicts), False)])
    return table(heads, rows)


def main():
    parser = argparse.ArgumentParser(usage=__doc__)
    parser.add_argument("report")
    parser.add_argument("--title", default=None)
    asked = parser.parse_args()
    with open(asked.report, newline="", encoding="utf-8") as file:
        records = list(csv.reader(file))
    if not records or len(records[0]) != 6 or records[0][3] != "verdict" or records[0][2] not in MISSED:
        sys.exit(f"{asked.report}: no report of cellaware")
    kind, records = records[0][2], records[1:]
    cells, instances, all_of = {}, {}, collections.Counter()
    for instance, cell, _, verdict, _, _ in records:
        cells.setdefault((cell,), collections.Counter())[verdict] += 1
        instances.setdefault((instance, cell), collections.Counter())[verdict] += 1
        all_of[verdict] += 1
    verdicts = [it for it in ORDER if all_of[it]]
    missed = [[(html.escape(it), False) for it in record[:4]] for record in records
              if record[3] in ("aborted", "untestable", "uncredited", "wide")]
    title = html.escape(asked.title or asked.report)
    key = "".join(f'<span><b style="background:{COLOURS[it]}"></b>{it} {all_of[it]:,}</span>' for it in verdicts)
    print(f"<!doctype html><html lang=en><meta charset=utf-8><title>{title}</title><style>{STYLE}</style>")
    credited = f", {share(all_of)} % of the exposable ones credited" if share(all_of) else ""
    print(f"<h1>{title}</h1><p>{len(records):,} {kind}s{credited}.</p><p class=key>{key}</p>")
    print(f"<section><h2>By cell</h2>{counted(dict(sorted(cells.items())), verdicts, ['cell'], kind + 's')}</section>")
    print(f"<section><h2>By instance</h2><input placeholder='part of a name'><div class=box>"
          f"{counted(instances, verdicts, ['instance', 'cell'], kind + 's')}</div></section>")
    print(f"<section><h2>{MISSED[kind]}</h2><input placeholder='part of a name'><div class=box>"
          f"{table(['instance', 'cell', kind, 'verdict'], missed)}</div></section>")
    print(f"<script>{SCRIPT}</script></html>")


if __name__ == "__main__":
    main()
