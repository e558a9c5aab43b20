"""Reports of programs with signals for `replay`: those of version 1, those of handlers within
handlers, and journals that no run makes."""
from __future__ import annotations

from typing import Any, Iterator
from smemu_tools.model.expected import block, report
from smemu_tools.model.expected_replay import Replayed, events_of, replay
from smemu_tools.rows.altered import answer

# programs whose reports are replayed as they are
AS_THEY_ARE = ("mask-in-each-way", "masked-signals-let-a-higher-one-come",
               "signal-no-longer-masked-has-come", "two-signals-of-one-poll-after-its-return",
               "own-signal-is-let-in-and-begins", "returns-with-all-masked",
               "inner-frame-with-depth-0", "stack-with-room-for-one-frame",
               "handlers-64-deep-waits", "handlers-64-deep-with-za-to-the-end",
               "62-signals-of-one-poll-return", "frame-over-a-page-end-after-336",
               "frame-of-another-state", "signal-while-za-is-dormant", "frame-below-the-stack",
               "nested-signals")


def strange_polls(handled: Any) -> Iterator[Any]:
    """Answers of a first poll that no run gives, with a signal that has a handler: signals 0 and 63
    have none, and are in no mask."""
    signal = 1 << handled
    yield from {"0": 1, "63": 1 << 63, "0-and-63": 1 | 1 << 63, "0-and-a-handled-one": 1 | signal,
                "63-and-a-handled-one": 1 << 63 | signal, "63-and-62": 3 << 62,
                "all": (1 << 64) - 1, "all-but-0": (1 << 64) - 2, "40": 1 << 40}.items()


def versioned(name: Any, file: Any, files: Any) -> Any:
    """The name of a program of version 1: another one where the file under its name is another."""
    return name if files.get(name) == file else f"version-1-{name}"


def changed_programs(files: Any, programs: Any) -> Iterator[Any]:
    """The programs of version 1 that are others now."""
    for name, file, _ in programs:
        if versioned(name, file, files) != name:
            yield versioned(name, file, files), file


def version_1_replays(files: Any, programs: Any) -> Iterator[Any]:
    """Reports of version 1 of programs with signals, which keep their meaning."""
    for name, file, options in programs:
        text = report(file, kernel=1, **options)
        yield f"version-1-{name}", versioned(name, file, files), text, 0, *replay(file, text)


def with_first_poll(file: Any, text: Any, answer: Any) -> Any:
    """The report of the run that the journal leads to where the answer of the first poll is
    another."""
    lines = text.splitlines()
    events = events_of(lines)
    at = next(at for at, line in enumerate(events) if line.startswith("e poll"))
    events[at] = f"{events[at][:-16]}{answer:016x}"
    named = dict(word.split("=") for word in lines[1].split()[1:])
    options = {name: int(value) for name, value in named.items()}
    options["kernel"] = int(lines[0].split()[1])
    thread, stop = Replayed(file, options, events, 0), None
    while stop is None and len(thread.journal) <= len(events):
        stop = turn_with(thread, events)
    return "\n".join([*lines[:3], *block(thread, stop), *lines[lines.index("shared"):], ""])


def turn_with(thread: Any, events: Any) -> Any:
    """A turn; past the events polls take nothing."""
    if len(thread.journal) == len(events):
        events.append(f"e poll {thread.number} {0:016x} {0:016x} {0:016x}")
    return thread.turn()


def replays_of_nested(programs: Any) -> Iterator[Any]:
    """The name of each report, the program, the report, the thread, the status and what is
    written."""
    named = {name: (file, options) for name, (_, file, options) in programs}
    for name in AS_THEY_ARE:
        file, options = named[name]
        text = report(file, **options)
        yield f"nested-{name}", name, text, 0, *replay(file, text)
    for name, handled in (("signals-of-one-poll", 3), ("nested-signals", 5),
                          ("62-signals-of-one-poll-begin", 1)):
        file, options = named[name]
        for version in (1, 2):
            if name == "nested-signals" and version == 1:
                continue
            text = report(file, kernel=version, **options)
            for how, bits in strange_polls(handled):
                altered = with_first_poll(file, text, bits)
                yield f"version-{version}-{name}-with-poll-of-{how}", name, altered, 0, *replay(
                    file, altered)
    name = "two-signals-of-one-poll-after-its-return"
    file, options = named[name]
    text = report(file, **options)
    for how, old, new in (("another-mask", "mask 0000000000000008", "mask 0000000000000028"),
                          ("another-depth", "depth 1", "depth 2"),
                          ("another-held", "held 00", "held 01"),
                          ("the-first-version", "smemu-report 2", "smemu-report 1"),
                          ("inside", "mask 0000000000000008\ndepth 1", "inside 1"),
                          ("the-first-version-and-inside", None, None)):
        altered = text.replace(old, new) if old else text.replace("smemu-report 2",
                                                                  "smemu-report 1").replace(
            "mask 0000000000000008\ndepth 1", "inside 1")
        yield f"nested-with-{how}", name, altered, 0, *answer(file, altered.encode(), 0)
