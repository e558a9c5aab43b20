"""Makes one HTML file of a report, or of two with what differs: `smemu show --page` calls it.

The table of threads and the list of what differs stand in the file as they are; all else is drawn
from the reports in it by page/page.js, with what report_places.py finds of the program. Nothing is
fetched from elsewhere.
"""
import html
import json
import pathlib

PARTS = pathlib.Path(__file__).resolve().parent / "page"
# so many events of a thread or a history, and lines of what differs, are in the file
MOST_EVENTS, MOST_LINES = 20_000, 500
COLUMNS = ("thread", "stop", "instructions", "turns", "events", "output")


def sparse(values):
    """The vectors that are not zero, by their numbers."""
    return {number: value.hex() for number, value in enumerate(values) if any(value)}


def event_list(event):
    return [event.kind, event.place, *(f"{value:x}" for value in (event.a, event.b, event.answer))]


def thread_data(report, thread, found):
    """What the page draws of a thread. Numbers of 64 bits are digits, since those of a page end at 2^53."""
    return {
        "stop": thread.stop.meaning, "failed": thread.stop.status != 0,
        "at": found and found.events.get(thread.number),
        "count": thread.count, "turns": thread.turns, "x": [f"{value:016x}" for value in thread.x],
        **{name: f"{getattr(thread, name):016x}" for name in ("pc", "sp", "tpidr", "tpidr2", "held")},
        "nzcv": thread.nzcv, "svcr": thread.svcr, "mask": f"{thread.mask:016x}" if report.version > 1 else None, "depth": thread.depth,
        "polled": int(thread.polled), "length": report.length(thread), "z": sparse(thread.z), "p": sparse(thread.p),
        "ffr": thread.ffr.hex() if any(thread.ffr) else "", "za": sparse(thread.za) if thread.za_on else None, "rows": report.svl // 8,
        "pages": thread.pages, "digest": thread.digest, "handlers": {number: f"{address:016x}" for number, address in thread.handlers.items()},
        "written": len(thread.output), "output": thread.output.decode(errors="backslashreplace"),
        "journal": [event_list(event) for event in thread.journal[:MOST_EVENTS]], "journalLeft": max(0, thread.events - MOST_EVENTS),
    }


def report_data(report, found):
    """What the page draws of a report, with what is known of its program or None."""
    history = report.history
    return {
        "threads": [thread_data(report, thread, found) for thread in report.threads],
        "places": found.lines if found else {},
        "shared": {number: f"{value:016x}" for number, value in report.shared.items()},
        "pending": {number: f"{value:016x}" for number, value in report.pending.items()},
        "history": history and [[entry.thread, *event_list(entry.event)] for entry in history[:MOST_EVENTS]],
        "historyLeft": max(0, len(history or ()) - MOST_EVENTS),
    }


def both(values):
    """What one report says, or two: where they differ the first is struck out."""
    first, *second = map(html.escape, values)
    return first if not second or second[0] == first else f'<span class="was">{first}</span> {second[0]}'


def thread_row(threads):
    """A row of the table: a thread of one report, or of two."""
    last = threads[-1]
    texts = zip(*((str(it.number), it.stop.meaning, f"{it.count:,}", f"{it.turns:,}", f"{it.events:,}", f"{len(it.output):,}") for it in threads))
    kinds = ["", "words" + " failed" * (last.stop.status != 0), "number", "number turns", "number", "number"]
    cells = "".join(f'<td class="{kind}">{both(values)}</td>' for kind, values in zip(kinds, texts))
    return f'<tr tabindex="0" data-thread="{last.number}">{cells}</tr>'


def thread_table(reports):
    """The table of all threads; of two reports a thread that one of them lacks is as the other has it."""
    most = max(len(report.threads) for report in reports)
    rows = [thread_row([report.threads[number] for report in reports if number < len(report.threads)]) for number in range(most)]
    heads = "".join(f'<th class="{"number " * (at > 1)}{name}">{name}</th>' for at, name in enumerate(COLUMNS))
    return f'<section id="threads" class="wide"><table><thead><tr>{heads}</tr></thead><tbody>{"".join(rows)}</tbody></table></section>'


def head(reports, names, title):
    """The title, the options, the program, and the events of the plan that were skipped."""
    lines = [f"<h1>{title}</h1>"]
    for what, values in (("", [" ".join(f"{name}={value}" for name, value in it.options.items()) for it in reports]),
                         ("report of version ", [str(it.version) for it in reports]), ("program ", [it.image for it in reports])):
        lines.append(f"<p><code>{what}{both(values)}</code></p>")
    for name, report in zip(names, reports):
        skips = "".join(f"<p>skipped: line {skip.line}, {html.escape(skip.why)}</p>" for skip in report.skips)
        lines.append(f"<details><summary>{html.escape(name)}: events of the plan that were skipped: {len(report.skips)}</summary>{skips}</details>" * bool(skips))
    return "".join(lines)


def differences_list(lines):
    """What differs between two reports, as lines."""
    if lines is None:
        return ""
    left = f"<p>and {len(lines) - MOST_LINES} more</p>" * (len(lines) > MOST_LINES)
    shown = "".join(f"<p><code>{html.escape(line)}</code></p>" for line in lines[:MOST_LINES])
    return (f'<section id="differences"><details{" open" * (len(lines) <= 12)}><summary>{len(lines) or "no"} '
            f'{"line differs" if len(lines) == 1 else "lines differ"}</summary>{shown}{left}</details></section>')


def first_thread(reports):
    """The thread that is shown first: the first one that did not exit with 0, else thread 0."""
    return next((thread.number for thread in reports[-1].threads if thread.stop.status != 0), 0)


def page(reports, names, lines, chosen, found, title=None):
    """The file, for one report or two with their names, and the lines of what differs. `chosen` is
    what is chosen at first, `found` what is known of each report's program, or None; a title stands
    in the place of the names."""
    drawn = [report_data(*both) for both in zip(reports, found)]
    first = {"thread": first_thread(reports), **chosen}
    held = json.dumps({"names": names, "first": first, "reports": drawn}, separators=(",", ":"))
    # no text of a report may end the element
    held = held.replace("<", "\\u003c")
    title = html.escape(title or " and ".join(names))
    return f"""<!DOCTYPE html>
<html lang="en">
<head>
<meta charset="utf-8">
<meta name="viewport" content="width=device-width, initial-scale=1">
<title>{title}</title>
<style>
{(PARTS / "page.css").read_text()}</style>
</head>
<body>
{head(reports, names, title)}
{thread_table(reports)}
{differences_list(lines)}
<noscript><p>The registers, vectors, ZA and events of a thread are drawn by the script in this file, which is not run here.</p></noscript>
<div id="panel"></div>
<script type="application/json" id="data">{held}</script>
<script>
{(PARTS / "page.js").read_text()}</script>
</body>
</html>"""
