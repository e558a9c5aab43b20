"""Rows of several threads: `run` with --threads, `sim` with plans, and `replay` of reports of
several threads, of both versions. What is to be written comes from world.py, and of a replay from
tools/smemu_tools/model/expected_replay.py.
"""
from __future__ import annotations

from typing import Any, Iterator
from smemu_tools import TOP
from smemu_tools.model.elf import assembled
from smemu_tools.model.expected import report as report_of_one
from smemu_tools.model.expected_replay import replay
from smemu_tools.model.world import World, run, sim
from smemu_tools.rows import HERE
from smemu_tools.rows.sources import linked
from smemu_tools.rows.world_programs import (BANKS, ENDS, FOREVER, HANDLES, LOCK, NESTS, NUMBERS,
                                             POSTS, PRODUCTS, TURNS, YIELDS, adds)

ANSWER, EXAMPLE = (assembled(*linked(HERE / "real" / "linked" / f"{name}.elf"))
                   for name in ("answer", "threads"))
EXAMPLE_PLAN = (TOP / "examples" / "threads.plan").read_text()
# of each program the options of its run
PROGRAMS = {
    "threads-add": (adds(1000), {"threads": 2}),
    "threads-tell-their-numbers": (NUMBERS, {"threads": 32, "slice": 3}),
    "threads-yield": (YIELDS, {"threads": 3}),
    "threads-take-a-lock": (LOCK, {"threads": 4, "slice": 7}),
    "threads-get-a-signal": (POSTS, {"threads": 4, "slice": 4}),
    "threads-end-otherwise": (ENDS, {"threads": 10, "slice": 10, "budget": 60}),
    "threads-add-products": (PRODUCTS, {"threads": 2, "slice": 7}),
    "threads-handle-signals": (HANDLES, {"threads": 3, "slice": 12}),
    "threads-nest": (NESTS, {"threads": 3, "slice": 12}),
    "threads-add-a-little": (adds(5), {"threads": 3, "slice": 1}),
    "threads-use-banks": (BANKS, {"threads": 8, "slice": 9}),
    "threads-use-za-in-turn": (TURNS, {"threads": 8, "svl": 2048}),
    "thread-loads-for-ever": (FOREVER, {"threads": 2, "slice": 9, "budget": 50}),
}
# other options, with which a program runs besides
OTHER_RUNS = {
    "threads-tell-their-numbers": [{"threads": threads, "slice": threads % 4 + 1}
                                   for threads in (2, 8, 9)],
    "threads-yield": [{"threads": 8}, {"threads": 12, "slice": 4}],
    "threads-get-a-signal": [{"threads": 3}, {"threads": 9, "slice": 5},
                             {"threads": 32, "slice": 50}],
    "threads-add-products": [{"threads": 2, "svl": 2048, "slice": 9},
                             {"threads": 9, "svl": 128, "vl": 512, "slice": 6}],
    "threads-handle-signals": [{"threads": 2, "svl": 128, "vl": 2048, "slice": 5}],
    "threads-nest": [{"threads": 2, "svl": 2048, "slice": 16},
                     {"threads": 9, "svl": 128, "vl": 512, "slice": 7}],
}

# threads that ask nothing whose answer another one can change, with options: their report is the
# same on any number of cores
APART = {
    "threads-handle-signals": [{"threads": 3, "slice": 12, "cores": 3},
                               {"threads": 9, "slice": 5, "svl": 2048, "cores": 4},
                               {"threads": 32, "slice": 50, "svl": 128, "vl": 512, "cores": 2}],
    "threads-use-banks": [{"threads": 8, "slice": 9, "svl": 2048, "cores": 4}],
    "threads-use-za-in-turn": [{"threads": 8, "svl": 2048, "cores": 4},
                               {"threads": 32, "slice": 7, "cores": 3}],
    "threads-nest": [{"threads": 8, "slice": 16, "svl": 512, "cores": 4},
                     {"threads": 32, "slice": 9, "svl": 128, "cores": 3}],
    "answer": [{"cores": 64}, {"threads": 32, "cores": 5}, {"threads": 2, "budget": 2, "cores": 2}],
}


def runs() -> Iterator[Any]:
    """The name of each program file, the file, the options and the report."""
    example = {"threads": 2, "slice": 9, "svl": 128}
    yield "threads-of-the-example", EXAMPLE, example, run(EXAMPLE, **example)
    for name, (file, options) in PROGRAMS.items():
        yield name, file, options, run(file, **options)
        for others in OTHER_RUNS.get(name, ()):
            yield (f"{name}-{'-'.join(f'{key}-{value}' for key, value in others.items())}", file,
                   others, run(file, **others))
    for name, options in APART.items():
        file = {"answer": ANSWER, **{program: of for program, (of, _) in PROGRAMS.items()}}[name]
        for others in options:
            yield (f"{name}-{'-'.join(f'{key}-{value}' for key, value in others.items())}", file,
                   others, run(file, **others))


# a plan with each refusal, and with two facts at once, of which the first is told; its last line
# has no line feed
REFUSALS = """
run 0 5
next 0

offer 0
run 2 1
next 4294967295
fetch 2
offer 64
fetch 0
next 0
fetch 0
next 0
offer 0
run 0 4
fetch 0
fetch 0
fetch 0
fetch 0
fetch 0
fetch 0
fetch 0


fetch 0
fetch 1
fetch 0
fetch 1
fetch 2
next 1
run 1 3
offer 1
next 1
run 1 3
offer 1
fetch 0
run 0 100
fetch 0
fetch 0
run 0 100
fetch 1"""

# thread 0 begins on core 0 and comes to core 1 behind thread 1
MOVED_ADDS = ("fetch 0\nrun 0 1500\noffer 0\nfetch 1\nfetch 1\nrun 1 700\nnext "
              "1\nrun 1 900\nnext 1\nrun 1 4294967295\nrun 1 4294967295\n")
# thread 0 is taken from core 0 within its handler, goes on on core 1 in the place of thread 1, and
# returns on core 0
INTO_HANDLER = "fetch 0\nrun 0 22\n"
ON_IN_HANDLER = INTO_HANDLER + "offer 0\nfetch 1\nfetch 1\nrun 1 15\nnext 1\nrun 1 1\n"
OUT_OF_HANDLER = ON_IN_HANDLER + "offer 1\nfetch 0\nrun 0 4294967295\nrun 1 4294967295\nrun 0 1\n"
# both threads have ZA, each on a core of its own; then thread 0 comes to the core on which thread 1
# has it, and they go on in turns
BOTH_LIVE = "fetch 0\nfetch 1\nrun 0 10\nrun 1 13\n"
BESIDE_LIVE = BOTH_LIVE + "offer 0\nfetch 1\nnext 1\nrun 1 3\nnext 1\nrun 1 4\nnext 1\n"
# then thread 1, whose ZA was put by, goes to core 0
APART_AGAIN = BESIDE_LIVE + "next 1\noffer 1\nfetch 0\nrun 1 6\nrun 0 2\nrun 1 1\n"
TO_THE_END = "run 0 100\nrun 1 100\n"
IN_STREAMING_MODE = "fetch 0\nrun 0 9\noffer 0\nfetch 1\nrun 1 3\noffer 1\nfetch 0\nrun 0 1\n"

# four threads on one core, of which thread 0 has ZA
OWNED = "fetch 0\n" * 4 + "run 0 15\n"
SCALAR_BESIDE = OWNED + "next 0\nrun 0 25\n"
# thread 2, which has no vectors in use, gets its signal while thread 0 has ZA
DELIVERED_BESIDE = OWNED + "next 0\n" * 2 + "run 0 20\n"
# thread 0 goes on before thread 2 returns
RETURNED_BESIDE = DELIVERED_BESIDE + "next 0\n" * 2 + "run 0 1\n" + "next 0\n" * 2 + "run 0 3\n"
STREAMING_BESIDE = OWNED + "next 0\n" * 3 + "run 0 30\n"
# thread 0 comes to the queue after others had turns, and goes on when they have ended
OFFERED_AFTER = SCALAR_BESIDE + "next 0\n" * 3 + "offer 0\nrun 0 100\nfetch 0\n" + "run 0 100\n" * 2
STOPPED_AFTER = SCALAR_BESIDE + "next 0\n" * 3 + "run 0 100\nrun 0 100\n"


def some_events(seed: Any, count: Any, cores: Any) -> Any:
    """Events of many kinds on those cores and one more, by a generator of numbers."""
    lines = []
    for _ in range(count):
        seed = (25173 * seed + 13849) % 65536
        core, kind = seed // 64 % (cores + 1), seed // 4096
        lines.append(f"run {core} {seed // 16 % 29 + 1}" if kind < 7
                     else f"{('fetch', 'next', 'offer')[kind % 3]} {core}")
    return "".join(line + "\n" for line in lines)


def in_turns(cores: Any, turns: Any, rounds: Any) -> Any:
    """Each core fetches a thread; then all make that many turns, one core after the other."""
    fetches = "".join(f"fetch {core}\n" for core in range(cores))
    return fetches + "".join(f"run {core} {turns}\n" for core in range(cores)) * rounds


NESTED = {"threads": 2, "slice": 16}


def turns_until(wanted: Any, **options: Any) -> Any:
    """The turns that thread 0 of NESTS makes until a state is as it is wanted."""
    thread = World(NESTS, **options).threads[0]
    while not wanted(thread):
        thread.make_turn()
    return thread.turns


def exchanged(turns: Any, rounds: Any) -> Any:
    """Two threads on two cores, which change places each time that both have made so many turns."""
    again = "offer 0\noffer 1\nfetch 1\nfetch 0\n"
    return "fetch 0\nfetch 1\n" + again.join([f"run 0 {turns}\nrun 1 {turns}\n"] * rounds)


def nested_plans(**options: Any) -> Iterator[Any]:
    """Plans in which a thread is moved within its third handler, with ZA on in it and in all those
    around it, to a core whose thread has ZA on too."""
    third = turns_until(lambda it: it.depth == 3 and any(map(any, it.matrix.za)), **options)
    second = turns_until(lambda it: it.depth == 2 and any(map(any, it.matrix.za)), **options)
    begins = f"fetch 0\nfetch 1\nrun 0 {third}\nrun 1 {second}\n"
    moved = begins + "offer 0\nfetch 1\nnext 1\nrun 1 2\n"
    back = moved + "next 1\nrun 1 3\nnext 1\noffer 1\nfetch 0\nrun 0 9\nrun 1 8\n"
    yield "is-moved-in-its-third-handler", moved
    yield "is-moved-back-in-its-second-handler", back
    yield "is-moved-and-goes-on-to-the-end", back + "run 0 200\nrun 1 200\n"
    yield ("is-offered-before-its-third-delivery",
           f"fetch 0\nrun 0 {third - 6}\noffer 0\nfetch 1\nfetch 1\nnext 1\nrun 1 20\n")
    for turns in (1, 2, 5, 7):
        yield f"changes-cores-each-{turns}-turns", exchanged(turns, 104 // turns + 4)


def plans() -> Iterator[Any]:
    """The name of each plan, its program, the options and the plan."""
    for name, plan in (("of-the-example", EXAMPLE_PLAN),
                       ("of-a-part-of-the-example",
                        EXAMPLE_PLAN[:EXAMPLE_PLAN.index("next 1\nrun 1 2")])):
        yield name, "threads", {"threads": 2, "cores": 2, "svl": 128}, plan
    yield "runs-the-answer", "answer", {}, "offer 0\nfetch 0\nrun 0 5\n"
    yield "runs-as-far-as-can-be", "answer", {}, "fetch 0\nrun 0 4294967295\n"
    yield "runs-part-of-the-answer", "answer", {}, "fetch 0\nrun 0 2\n"
    yield "runs-on-the-last-core", "answer", {"cores": 64}, "fetch 64\nfetch 63\nrun 63 3\n"
    yield "without-an-event", "threads-add-a-little", {"threads": 2}, ""
    yield "of-empty-lines", "threads-add-a-little", {"threads": 2}, "\n\n\n"
    yield "of-an-empty-line-and-an-event", "threads-add-a-little", {"threads": 2}, "\nrun 0 1"
    yield "fetches-alone", "threads-add-a-little", {"threads": 2, "cores": 2}, "fetch 1\nfetch 0\n"
    yield "moves-between-cores", "threads-add", {"threads": 2, "cores": 2}, MOVED_ADDS
    yield "has-every-refusal", "threads-tell-their-numbers", {"threads": 9, "cores": 2}, REFUSALS
    yield ("fetches-nine-of-eight", "threads-tell-their-numbers", {"threads": 8},
           "fetch 0\n" * 9 + "run 0 20\nfetch 0\n")
    yield ("fetches-nine-of-32", "threads-tell-their-numbers", {"threads": 32, "slice": 6},
           "fetch 0\n" * 9 + "next 0\nrun 0 7\noffer 0\nfetch 0\n")
    for name, plan in (("into", INTO_HANDLER), ("on-in", ON_IN_HANDLER),
                       ("out-of", OUT_OF_HANDLER)):
        yield f"moves-{name}-a-handler", "threads-handle-signals", {"threads": 2, "cores": 2,
                                                                    "slice": 16}, plan
    for svl in (128, 512):
        for name, plan in nested_plans(**NESTED, svl=svl):
            yield f"nested-{name}-at-{svl}", "threads-nest", {**NESTED, "cores": 2,
                                                              "svl": svl}, plan
    yield "of-many-events-with-nested-handlers", "threads-nest", {"threads": 6, "cores": 3,
                                                                  "slice": 13,
                                                                  "svl": 128}, some_events(77, 260,
                                                                                           3)
    yield "moves-out-of-a-handler-at-2048", "threads-handle-signals", {"threads": 2, "cores": 2,
                                                                       "slice": 16,
                                                                       "svl": 2048}, OUT_OF_HANDLER
    yield "moves-in-streaming-mode", "threads-add-products", {"cores": 2,
                                                              "svl": 2048}, IN_STREAMING_MODE
    yield ("moves-in-streaming-mode-to-the-end", "threads-add-products", {"cores": 2, "svl": 2048},
           IN_STREAMING_MODE + "run 0 100\n")
    yield "moves-beside-live-za", "threads-add-products", {"threads": 2, "cores": 2,
                                                           "svl": 2048}, BESIDE_LIVE
    yield ("moves-beside-live-za-to-the-end", "threads-add-products", {"threads": 2, "cores": 2},
           BESIDE_LIVE + "run 1 100\n" * 2)
    yield "parts-after-live-za", "threads-add-products", {"threads": 2, "cores": 2}, APART_AGAIN
    yield ("parts-after-live-za-to-the-end", "threads-add-products",
           {"threads": 2, "cores": 2, "svl": 128}, APART_AGAIN + TO_THE_END)
    for name, plan in (("scalar-turns", SCALAR_BESIDE), ("a-delivery", DELIVERED_BESIDE),
                       ("a-return", RETURNED_BESIDE), ("streaming-mode", STREAMING_BESIDE)):
        yield f"has-{name}-beside-za", "threads-use-banks", {"threads": 4, "slice": 16}, plan
    yield ("has-a-return-beside-za-at-2048", "threads-use-banks",
           {"threads": 4, "slice": 16, "svl": 2048}, RETURNED_BESIDE + "run 0 100\n" * 4)
    yield "offers-za-that-others-stood-before", "threads-use-banks", {"threads": 4, "slice": 16,
                                                                      "svl": 2048}, OFFERED_AFTER
    yield "ends-za-that-others-stood-before", "threads-use-banks", {"threads": 4,
                                                                    "slice": 16}, STOPPED_AFTER
    yield ("uses-za-in-turn", "threads-use-za-in-turn", {"threads": 8, "svl": 2048},
           "fetch 0\n" * 8 + "run 0 7\nnext 0\n" * 20)
    yield "of-many-events-on-one-core", "threads-use-banks", {"threads": 8,
                                                              "slice": 7}, some_events(5, 200, 1)
    yield "of-many-events-on-three-cores", "threads-use-banks", {"threads": 11, "cores": 3,
                                                                 "slice": 5}, some_events(11, 250,
                                                                                          3)
    yield ("ends-runs-at-a-yield", "threads-yield", {"threads": 2},
           "fetch 0\nfetch 0\nrun 0 100\nrun 0 100\nnext 0\nrun 0 100\n")
    yield ("ends-a-run-with-its-yield", "threads-yield", {"threads": 2},
           "fetch 0\nrun 0 12\nrun 0 1\nnext 0\n")
    yield ("ends-runs-at-yields-and-a-stop", "threads-yield", {"threads": 2},
           "fetch 0\nfetch 0\n" + "run 0 100\n" * 5 + "next 0\nrun 0 6\n")
    yield ("runs-after-the-last-stop", "threads-yield", {"threads": 2, "cores": 2},
           "fetch 1\n" + "run 1 100\n" * 6 + "fetch 1\noffer 1\nfetch 0\n")
    yield ("comes-to-the-budget", "threads-add-a-little", {"threads": 2, "budget": 3},
           "fetch 0\nrun 0 3\nnext 0\nrun 0 1\nrun 0 1\n")
    yield ("stands-at-the-budget", "threads-add-a-little", {"threads": 2, "budget": 3},
           "fetch 0\nrun 0 3\noffer 0\n")
    yield ("stands-between-a-poll-and-a-delivery", "threads-handle-signals", {"slice": 12},
           "fetch 0\nrun 0 13\n")
    yield ("stands-between-a-poll-and-an-instruction", "threads-add-a-little", {"slice": 4},
           "fetch 0\nrun 0 5\noffer 0\nfetch 0\n")
    yield "takes-turns-on-three-cores", "threads-add-a-little", {"threads": 3,
                                                                 "cores": 3}, in_turns(3, 1, 25)
    yield "takes-a-lock-on-four-cores", "threads-take-a-lock", {"threads": 4, "cores": 4,
                                                                "slice": 11}, in_turns(4, 3, 50)
    yield "posts-to-one-in-the-queue-and-one-done", "threads-get-a-signal", {"threads": 4, "slice": 6}, "fetch 0\n" * 3 + "next 0\n" * 2 + (
        "run 0 100\nrun 0 40\nnext 0\nrun 0 30\nfetch 0\nnext 0\nrun 0 20\n")
    yield "posts-over-four-cores", "threads-get-a-signal", {"threads": 4, "cores": 4,
                                                            "slice": 9}, in_turns(4, 5, 25)
    yield "loads-while-others-add", "thread-loads-for-ever", {"threads": 3, "cores": 3,
                                                              "slice": 9}, in_turns(3, 2, 8)
    yield "of-many-events", "threads-yield", {"threads": 5, "cores": 3, "slice": 8}, some_events(
        7, 160, 3)
    yield "of-many-events-with-za", "threads-handle-signals", {"threads": 5, "cores": 3,
                                                               "slice": 11,
                                                               "svl": 128}, some_events(21, 150, 3)
    yield "of-many-events-with-signals", "threads-get-a-signal", {"threads": 11, "cores": 2,
                                                                  "slice": 5}, some_events(1, 300,
                                                                                           2)


GOOD = "fetch 0\nrun 0 3\n"
# plans that are refused, the line at fault and its kind
FAULTS: dict[str, Any] = {
    "unknown-name": ("start 0\n", 1, "unknown"),
    "unknown-in-capitals": ("Fetch 0\n", 1, "unknown"),
    "unknown-of-a-script": (GOOD + "step 1\n", 3, "unknown"),
    "unknown-blank": (" \n", 1, "unknown"),
    "unknown-blanks-before-good-lines": ("   \n" + GOOD, 1, "unknown"),
    "unknown-tab": ("\t\n", 1, "unknown"),
    "unknown-blank-before-the-name": (GOOD + "\n offer 0\n", 4, "unknown"),
    "unknown-tab-after-the-name": ("fetch\t0\n", 1, "unknown"),
    "unknown-carriage-return": ("fetch 0\n\r\n", 2, "unknown"),
    "unknown-without-its-blank": ("fetch0\n", 1, "unknown"),
    "unknown-comment": ("fetch 0\n// then\n", 2, "unknown"),
    "unknown-number": ("0 run\n", 1, "unknown"),
    "unknown-with-a-zero-byte": ("fetch\0 0\n", 1, "unknown"),
    "unknown-with-a-mark-before": ("\ufefffetch 0\n", 1, "unknown"),
    "unknown-before-a-bad-number": ("wait x\n", 1, "unknown"),
    "missing-core": ("fetch\n", 1, "missing"),
    "missing-core-of-run": ("run\n", 1, "missing"),
    "missing-turns": ("run 0\n", 1, "missing"),
    "missing-without-a-line-feed": (GOOD + "run 0", 3, "missing"),
    "missing-core-of-next": (GOOD + "next\n", 3, "missing"),
    "missing-core-of-offer": (GOOD + "\n\noffer\n", 5, "missing"),
    "badnumber-no-turns": ("run 0 0\n", 1, "badnumber"),
    "badnumber-turns-of-33-bits": ("run 0 4294967296\n", 1, "badnumber"),
    "badnumber-core-of-33-bits": ("next 4294967296\n", 1, "badnumber"),
    "badnumber-core-of-65-bits": ("fetch 18446744073709551616\n", 1, "badnumber"),
    "badnumber-of-40-digits": ("run 0 1000000000000000000000000000000000000001\n", 1, "badnumber"),
    "badnumber-leading-zero": ("fetch 00\n", 1, "badnumber"),
    "badnumber-leading-zero-of-turns": ("run 0 05\n", 1, "badnumber"),
    "badnumber-sign": ("offer +0\n", 1, "badnumber"),
    "badnumber-below-zero": ("run -1 5\n", 1, "badnumber"),
    "badnumber-hexadecimal": ("run 0 0x5\n", 1, "badnumber"),
    "badnumber-two-blanks": ("fetch  0\n", 1, "badnumber"),
    "badnumber-two-blanks-before-turns": ("run 0  5\n", 1, "badnumber"),
    "badnumber-blank-at-the-end": ("fetch \n", 1, "badnumber"),
    "badnumber-blank-after-the-core": ("run 0 \n", 1, "badnumber"),
    "badnumber-carriage-return": ("fetch 0\r\n", 1, "badnumber"),
    "badnumber-carriage-return-after-good-lines": (GOOD + "run 0 5\r\n", 3, "badnumber"),
    "badnumber-tab": ("run 0\t5\n", 1, "badnumber"),
    "badnumber-other-digits": ("fetch \u0660\n", 1, "badnumber"),
    "badnumber-before-a-missing-word": ("run x\n", 1, "badnumber"),
    "badnumber-before-an-extra-word": ("run x 5 7\n", 1, "badnumber"),
    "badnumber-of-turns-before-an-extra-word": ("run 0 0 7\n", 1, "badnumber"),
    "badnumber-of-the-first-of-two": ("run 00 00\n", 1, "badnumber"),
    "extra-word": ("run 0 5 7\n", 1, "extra"),
    "extra-turns": ("fetch 0 1\n", 1, "extra"),
    "extra-blank": ("fetch 0 \n", 1, "extra"),
    "extra-blank-after-turns": ("run 0 5 \n", 1, "extra"),
    "extra-blanks": ("next 0  \n", 1, "extra"),
    "extra-comment": (GOOD + "offer 0 // back\n", 3, "extra"),
    "nottext": (b"fetch 0\n\xff\n", 2, "nottext"),
    "nottext-within-a-word": (b"fe\xc3tch 0\n", 1, "nottext"),
    "nottext-after-a-whole-event": (b"fetch 0 \xff\n", 1, "nottext"),
    "nottext-half-a-pair": (b"\n\nfetch \xed\xa0\x80\n", 3, "nottext"),
    "nottext-too-long-a-form": (b"fetch \xc0\xb0\n", 1, "nottext"),
    "nottext-cut-short": (b"fetch 0\nrun 0 \xe4\xb8", 2, "nottext"),
    "nottext-after-a-bad-line": (b"fetch 0\nfetch\n\xff\n", 2, "missing"),
    "nottext-before-a-bad-line": (b"fetch 0\n\xff\nfetch\n", 2, "nottext"),
    "first-of-two": (GOOD + "fetch x\nrun 0\n", 3, "badnumber"),
    "first-of-two-after-empty-lines": ("\n\n" + GOOD + "\nrun 0\n\nstart\n", 6, "missing"),
    "last-of-many": (GOOD * 50 + "extra 0\n", 101, "unknown"),
}


def faults() -> Iterator[Any]:
    """The name of each plan that is refused, the plan, and the line and the kind of its fault,
    which are written out here."""
    for name, (plan, line, kind) in FAULTS.items():
        plan = plan if isinstance(plan, bytes) else plan.encode()
        text = f"bad plan: line {line}: {kind}\n"
        assert sim(b"", plan) == (11, text), name
        yield name, plan, text


def of_report(text: Any) -> Any:
    """The lines of a simulation from those of a report's first to its last one."""
    return text[text.index("smemu-report "):text.index("\nend\n") + 5]


def rewritten(row: Any, version: Any, files: Any) -> Any:
    """What a row of `run` or `sim` writes in a version; `files` has the programs by their names."""
    _, _, file, _, words = row
    command, *others = words
    options = {name: value for name, value in words.items() if value}
    if command == "sim":
        return sim(files[others[0]], file, kernel=version, **options)[1]
    return (run if "threads" in options or "cores" in options else report_of_one)(file,
                                                                                  kernel=version,
                                                                                  **options)


def nested_replays(written: Any) -> Iterator[Any]:
    """The threads of programs with handlers within handlers, on one core, on four, and moved
    between cores."""
    for name, count in (("threads-nest.elf", 3),
                        ("threads-nest-threads-8-slice-16-svl-512-cores-4.elf", 8),
                        ("plan-nested-is-moved-and-goes-on-to-the-end-at-128.plan", 2),
                        ("plan-nested-changes-cores-each-1-turns-at-512.plan", 2)):
        report = of_report(written[name])
        for number in range(count):
            yield (f"{name.split('.')[0].replace('plan-', '', 1)}-{number}", "threads-nest", report,
                   number, *replay(NESTS, report, number))


# the rows whose reports are replayed in version 1 too
OLD = ("threads-get-a-signal.elf", "threads-add.elf", "plan-moves-between-cores.plan",
       "plan-moves-out-of-a-handler.plan", "plan-runs-the-answer.plan",
       "plan-runs-part-of-the-answer.plan", "plan-ends-runs-at-yields-and-a-stop.plan",
       "threads-use-za-in-turn-threads-8-svl-2048-cores-4.elf")


def replays(written: Any) -> Iterator[Any]:
    """Reports of several threads: the name of the report, the program, the report, the thread, the
    status and what is written. `written` has of each row what it writes."""
    for program, name, count in (("threads-get-a-signal", "threads-get-a-signal.elf", 4),
                                 ("threads-add", "plan-moves-between-cores.plan", 2),
                                 ("threads-handle-signals", "plan-moves-out-of-a-handler.plan", 2),
                                 ("threads-use-za-in-turn",
                                  "threads-use-za-in-turn-threads-8-svl-2048-cores-4.elf", 8)):
        report = of_report(written[name])
        for number in range(count):
            yield f"{program}-{number}-of-{count}", program, report, number, *replay(
                PROGRAMS[program][0], report, number)
    # thread 1 of two that add: the answer of its last addition, which X2 shows, is another, or that
    # event is gone
    report = written["threads-add.elf"]
    start, last = report.index("\nthread 1\n"), report[:report.rindex("\nend-thread\n")].rsplit(
        "\n", 1)[1]
    for how, there, altered in (("with-another-last-answer", last, last[:-16] + "00000000000007d0"),
                                ("without-its-last-event", last + "\n", "")):
        changed = report[start:].replace(there, altered)
        other = report[:start] + (changed if altered
                                  else changed.replace("journal 1003\n", "journal 1002\n"))
        yield f"threads-add-1-{how}", "threads-add", other, 1, *replay(PROGRAMS["threads-add"][0],
                                                                       other, 1)
    text = written["plan-runs-the-answer.plan"]
    line = lambda report, start: report[:report.index(start)].count("\n") + 1
    stopped, going = of_report(text), of_report(written["plan-runs-part-of-the-answer.plan"])
    yield "answer-of-a-plan", "answer", stopped, 0, *replay(ANSWER, stopped)
    refused = {
        "answer-that-goes-on": (going, f"{line(going, 'stop none')}: block"),
        "answer-with-a-skipped-line": (text, "1: header"),
        "answer-with-a-history": (text.replace("skip 1 noresident\n", "", 1),
                                  f"{stopped.count(chr(10)) + 1}: end"),
    }
    for name, (report, fault) in refused.items():
        yield name, "answer", report, 0, 9, f"bad report: line {fault}\n"
    # thread 0 has stopped, and thread 1 goes on
    report = of_report(written["plan-ends-runs-at-yields-and-a-stop.plan"])
    yield ("thread-0-where-1-goes-on", "threads-yield", report, 0, 9,
           f"bad report: line {line(report, 'stop none')}: block\n")


def world_rows() -> Any:
    """Rows as make_rows.py has them: the name, the status, the file, what is to be written, and the
    words of the command."""
    rows = [(f"{name}.elf", 0, file, text, {"run": "", **options})
            for name, file, options, text in runs()]
    files = {"answer": ANSWER, "threads": EXAMPLE,
             **{name: file for name, (file, _) in PROGRAMS.items()}}
    for name, program, options, plan in plans():
        status, text = sim(files[program], plan.encode(), **options)
        rows.append((f"plan-{name}.plan", status, plan.encode(), text,
                     {"sim": "", f"{program}.elf": "", **options}))
    written = {name: text for name, _, _, text, _ in rows}
    files = {f"{program}.elf": file for program, file in files.items()}
    before = {row[0]: rewritten(row, 1, files) for row in rows if row[0] in OLD}
    again = [*replays(before), *((f"version-2-{name}", *row) for name, *row in replays(written)),
             *nested_replays(written)]
    rows += [(f"plan-at-fault-{name}.plan", 11, plan, text, {"sim": "", "answer.elf": ""})
             for name, plan, text in faults()]
    # the program is read, and refused, before the plan
    rows.append(("plan-of-no-program.plan", 6, b"start\n", "bad file: truncated 0\n",
                 {"sim": "", "refused-empty.elf": ""}))
    rows += [(f"replay-{name}.report", status, report.encode(), text,
              {"replay": "", f"{program}.elf": "", str(number): ""})
             for name, program, report, number, status, text in again]
    return rows
