"""Makes one HTML file of a profile: `smemu profile --page` calls it.

The functions and the source lines stand in the file as they are; the flame graph is drawn by
page/profile.js. Nothing is fetched from elsewhere.
"""
from __future__ import annotations

import collections
import html
import json
import pathlib
from typing import Any, Iterator

PARTS = pathlib.Path(__file__).resolve().parent / "page"
# stacks with a lesser part of all instructions are left out of the graph
LEAST_PART = 10_000
# the lines of a file, and the instructions of functions that have no lines, that are in the page at
# most
MOST_LINES = 20_000
# lines without code around those with code
AROUND = 2


def tree(stacks: dict[tuple[str, ...], int]) -> list[int | list[list[int | list[Any] | str]] | str]:
    """The stacks as a tree: of each function its name, its own instructions, those with all that it
    called, and these."""
    top: list[Any] = ["all", 0, 0, {}]
    for stack, count in stacks.items():
        here = top
        here[2] += count
        for name in stack:
            here = here[3].setdefault(name, [name, 0, 0, {}])
            here[2] += count
        here[1] += count
    return pruned(top, max(1, top[2] // LEAST_PART))


def pruned(node: Any, least: int) -> list[int | list[list[int | list[Any] | str]] | str]:
    """A tree without what is less than so many instructions, as lists."""
    name, own, whole, below = node
    return [name, own, whole,
            [pruned(it, least) for _, it in sorted(below.items()) if it[2] >= least]]


def function_rows(stacks: dict[tuple[str, ...], int]) -> list[tuple[str, int, int]]:
    """Each function with its own instructions and those of all that it called, each stack once."""
    own, whole = collections.Counter(), collections.Counter()
    for stack, count in stacks.items():
        own[stack[-1]] += count
        whole.update({name: count for name in set(stack)})
    return sorted(((name, own[name], count) for name, count in whole.items()),
                  key=lambda it: (-it[1], -it[2], it[0]))


def share(count: int, total: int) -> str:
    return f"{100 * count / total:.1f}%" if total else "0%"


def function_table(stacks: dict[tuple[str, ...], int], total: int) -> str:
    rows = "".join(f'<tr><td class="number">{own:,}</td><td '
                   f'class="number">{share(own, total)}</td><td class="number">{whole:,}</td>'
                   f'<td class="number">{share(whole, total)}</td><td>{html.escape(name)}</td></tr>'
                   for name, own, whole in function_rows(stacks))
    return ('<section id="functions"><h2>Functions</h2><div class="wide"><table><thead><tr><th class="number" colspan="2">its own</th>'
            f'<th class="number" colspan="2">with its calls</th><th>function</th></tr></thead><tbody>{rows}</tbody></table></div></section>')


def heat(count: int | None, most: int) -> str:
    """A background that is as strong as the count's part of the greatest."""
    return f' style="--heat:{0.08 + 0.47 * count / most:.3f}"' if count else ""


def line_rows(numbered: Any, most: int) -> Iterator[str]:
    """Rows of a table: a number, how often it was executed or None, and the text."""
    for number, count, text in numbered:
        kind = "plain" if count is None else "hot" if count else "never"
        told = "" if count is None else f"{count:,}"
        yield (f'<tr class="{kind}"{heat(count, most)}><td class="number '
               f'dim">{number}</td><td class="number">{told}</td>'
               f'<td class="text">{html.escape(text)}</td></tr>')


def file_lines(lines: dict[int, int], texts: list[str]) -> Iterator[tuple[int, int | None, str]]:
    """The lines of a file from the first to the last with code, and some around them: number,
    count, text."""
    numbers = [*lines, *()]
    for number in range(max(1, min(numbers) - AROUND),
                        min(max(numbers) + AROUND, max(len(texts), max(numbers))) + 1):
        yield number, lines.get(number), texts[number - 1] if number <= len(texts) else ""


def block(name: str, count: int, total: Any, rows: Iterator[Any], is_open: bool) -> str:
    return (f'<details{" open" * is_open}><summary>{html.escape(name)} '
            f'<span class="dim">{count:,} instructions, '
            f'{share(count, total)}</span></summary>' f'<div class="wide"><table '
            f'class="source"><tbody>{"".join(rows)}</tbody></table></div></details>')


def sources_section(code: Any, counts: dict[int, int], sources: Any) -> str:
    """The source lines with their counts, file by file, the one with the most instructions first;
    and the instructions of functions without lines."""
    total, files = sum(counts.values()), collections.defaultdict(dict)
    for (file, number), held in code.lines().items():
        files[file][number] = sum(counts.get(it, 0) for it in held)
    most = max([1, *(count for lines in files.values() for count in lines.values())])
    blocks = []
    for file, lines in sorted(files.items(), key=lambda it: (-sum(it[1].values()), it[0])):
        rows = line_rows(list(file_lines(lines, sources.lines(file)))[:MOST_LINES], most)
        blocks.append(block(pathlib.PurePath(file).name, sum(lines.values()), total, rows,
                            not blocks))
    bare = [(name, [it for it in held if not code.line(it)])
            for name, held in code.functions().items()]
    most, is_first = max([1, *counts.values()]), not blocks
    for name, held in sorted(bare, key=lambda it: -sum(counts.get(at, 0) for at in it[1])):
        count = sum(counts.get(it, 0) for it in held)
        if held and (count or is_first):
            rows = line_rows([(f"{it:x}", counts.get(it, 0), code.texts[it])
                              for it in held[:MOST_LINES]], most)
            blocks.append(block(f"{name}: instructions without a line" if not is_first else name,
                                count, total, rows, is_first and count == total))
    return f'<section id="sources"><h2>{"Source lines" if files else "Instructions"}</h2>{"".join(blocks)}</section>'


def page(code: Any, counts: dict[int, int], stacks: dict[tuple[str, ...], int], sources: Any,
         title: str) -> str:
    """The file."""
    name = html.escape(pathlib.PurePath(code.program).name)
    # no text of a program may end the element
    held = json.dumps(tree(stacks), separators=(",", ":")).replace("<", "\\u003c")
    return f"""<!DOCTYPE html>
<html lang="en">
<head>
<meta charset="utf-8">
<meta name="viewport" content="width=device-width, initial-scale=1">
<title>{name}</title>
<style>
{(PARTS / "page.css").read_text()}{(PARTS / "profile.css").read_text()}</style>
</head>
<body>
<h1>{name}</h1>
<p>{html.escape(title)}</p>
<section id="graph"><h2>Flame graph</h2>
<noscript><p>The flame graph is drawn by the script in this file, which is not run here.</p></noscript>
</section>
{function_table(stacks, sum(counts.values()))}
{sources_section(code, counts, sources)}
<script type="application/json" id="data">{held}</script>
<script>
{(PARTS / "profile.js").read_text()}</script>
</body>
</html>"""
