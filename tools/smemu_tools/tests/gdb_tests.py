"""Tries what smemu gdb says of shared words, of the history, of faults, at a port and in gdb's
machine interface, and the pages of reports with their program and of orders: `tools/smemu-tools
beside-tests` calls it.

What a thread shares at a count is what a run with that budget reports; where events are made
follows from the sources; a fault's signal is the one that Linux sends for it, by the number that
gdb's protocol has, and where QEMU is there, the one that gdb says over it.
"""
from __future__ import annotations

import argparse
import json
import pathlib
import queue
import re
import shutil
import subprocess
import threading
import time
from typing import Any, Callable
from unittest import mock

from smemu_tools import TOOL, TOP
from smemu_tools.tests import script_tests
from smemu_tools.user import outcomes, progress, recorded, reports, shared_words

SECONDS = 30

# each operation on shared words, some of them twice, and a handler whose first instruction is one
OPERATIONS = """
    .global _start
_start:
    mov x28, #0x7f0000000000
    mov x2, #9
    str x2, [x28, #8]!
    ldr x3, [x28], #8
    mov x4, #3
    swpal x4, x5, [x28]
    ldadd x2, x5, [x28]
    ldclra x4, x5, [x28]
    ldeorl x2, x5, [x28]
    ldsetal x4, x5, [x28]
    mov x6, #24
    sub x7, x28, #16
    ldumax x2, x5, [x28]
    ldumin x4, x5, [x28]
    mov x5, #1
    cas x5, x2, [x28]
    cas x4, x2, [x28]
    stlr x2, [x28]
    str x4, [x7, x6]
    mov w6, #4
    str x2, [x7, w6, uxtw #3]
    stur x2, [x28, #24]
    mov x0, #5
    adr x1, handler
    mov x8, #134
    svc #0
    mov x0, #0
    mov x1, #5
    mov x8, #131
    svc #0
    mov x1, #63
    mov x0, #0
    mov x8, #131
    svc #0
    ldar x3, [x28]
    ldur x3, [x28, #24]
    nop
    nop
    mov x0, #0
    mov x8, #93
    svc #0
handler:
    str x1, [x28, #40]
    mov x8, #139
    svc #0
"""


def by_budget(tests: Any, program: pathlib.Path, last: int, *options: Any) -> list[Any]:
    """The reports of runs with each budget up to one."""
    return [None] + [reports.read(tests.report(program, "budget", "--budget", n, *options))
                     for n in range(1, last + 1)]


def try_events(tests: Any, client: Callable[..., Any]) -> None:
    """How many events there were at each count, and the words after them, for each slice; and where
    gdb stops that watches a word."""
    program = tests.assemble("operations", OPERATIONS)
    for slice_ in (1, 2, 3, 7, 1000):
        options = ("--slice", slice_)
        path = tests.report(program, "operations", *options)
        report, thread = reports.read(path), recorded.Recorded(program, path, 0)
        runs = by_budget(tests, program, thread.end, *options)
        events = shared_words.Events(thread, report.threads[0].journal)
        shared = shared_words.Shared(report)
        # a run that ends with its budget polls no more there
        wanted = [[run.threads[0].events, run.shared] for run in runs[1:]]
        found = [[made,
                  {word: value for word in range(512) if (value := shared.word(0, word, made))}]
                 for made in map(events.made, range(1, thread.end))]
        tests.check(f"events with a slice of {slice_}",
                    [*found, [events.made(thread.end), report.shared]], wanted)
        counts = [events.count_of(number) for number in range(len(events.journal))]
        # at a poll it is not the instruction alone that makes an event
        is_between = lambda count: count % slice_ or not count
        wanted = [n for n in range(thread.end) if is_between(n) and made_one(runs, n + 1)]
        tests.check(f"counts of events with a slice of {slice_}",
                    [[it for it in counts if is_between(it)], counts == sorted(counts)],
                    [wanted, True])
    try_watch(tests, client, program, path, runs)


def made_one(runs: list[Any], count: int) -> bool:
    """Tells whether an event was made by the instruction that was counted last."""
    return runs[count].threads[0].events > (runs[count - 1].threads[0].events if count > 1 else 0)


def try_watch(tests: Any, client: Callable[..., Any], program: pathlib.Path, path: pathlib.Path,
              runs: list[Any]) -> None:
    """Memory of shared words, and a watch of one of them, forwards and back."""
    gdb, end = client(tests, program, path), len(runs) - 1
    address, word = 0x7F0000000010, lambda count: runs[count].shared.get(2, 0) if count else 0
    changes = [n for n in range(end) if word(n) != word(n + 1)]
    found = []
    for count in range(end):
        gdb.monitor(f"goto {count}")
        found.append(int.from_bytes(bytes.fromhex(gdb.ask(f"m{address:x},8")), "little"))
    tests.check("a shared word at each count", found, [word(count) for count in range(end)])
    both = word(end - 1).to_bytes(8, "little") + runs[end].shared[3].to_bytes(8, "little")
    tests.check("a part of two words", gdb.ask(f"m{address + 6:x},4"), both[6:10].hex())
    tests.check("no shared words", gdb.ask("m7f0000001000,8"), "E01")
    gdb.monitor("goto 0")
    gdb.ask(f"Z2,{address:x},8")
    forwards = []
    for _ in changes:
        forwards += [gdb.ask("c"), gdb.value("count")]
        gdb.ask("s")
    tests.check("a watch of a shared word", forwards,
                [it for count in changes for it in (f"T05thread:1;watch:{address:x};", count)])
    tests.check("no more changes", [gdb.ask("c"), gdb.value("count")],
                ["T05thread:1;replaylog:end;", end])
    backwards = []
    for _ in changes:
        backwards += [gdb.ask("bc"), gdb.value("count")]
        gdb.ask("bs")
    tests.check("the same, back", backwards,
                [it for count in reversed(changes)
                 for it in (f"T05thread:1;watch:{address:x};", count + 1)])
    note = "shared words have their value after the thread's last event: monitor shared"
    tests.check("a note, once", gdb.said.count(note), 1)
    tests.check("a watch for reads",
                [gdb.ask("Z3,400000,8"), gdb.ask("Z4,400000,8"), gdb.ask("z3,400000,8")],
                ["", "", ""])
    said = [line.partition(":")[2] for line in tests.path("gdb.said").read_text().splitlines()]
    tests.check("what is said of it", [line.partition(" (")[0] for line in said],
                [" watchpoints for reads"] * 2)
    gdb.close()


# of examples/race.s an order in which an addition is lost, and after each of its events the two
# words and where both threads are, behind their last one
PLAN = "fetch 0\nfetch 1\nrun 0 3\nrun 1 6\nrun 0 10\nrun 1 7\n"
BEHIND = {"lock": 0x40000C, "set": 0x400014, "read": 0x400018, "add": 0x400020, "open": 0x400024,
          "": 0x400000}
MOMENTS = (
    ((0, 0), "", ""), ((0, 0), "lock", ""), ((0, 0), "lock", "lock"), ((1, 0), "lock", "set"),
    ((1, 0), "lock", "read"), ((1, 0), "set", "read"), ((1, 0), "read", "read"),
    ((1, 1), "add", "read"), ((0, 1), "open", "read"), ((0, 1), "open", "add"),
    ((0, 1), "open", "open"),
)
LAST = len(MOMENTS) - 1


def race(tests: Any, source: str | None = None) -> tuple[pathlib.Path, pathlib.Path]:
    """The race's program, and what `sim` writes of it."""
    program = tests.assemble("planned", source or (TOP / "examples/race.s").read_text())
    tests.path("planned.plan").write_text(PLAN)
    written = tests.run(tests.smemu, "sim", program, tests.path("planned.plan"), "--threads", 2,
                        "--cores", 2)[1]
    tests.path("planned.sim").write_text(written)
    return program, tests.path("planned.sim")


def try_history(tests: Any, client: Callable[..., Any]) -> None:
    """All threads go to one place of the history, and see its words."""
    program, path = race(tests)
    gdb = client(tests, program, path)
    tests.check("the length of the history", gdb.monitor("event 99"),
                f"the history has {LAST} events: monitor event 0 to {LAST}")
    for number in [*range(len(MOMENTS)), *range(len(MOMENTS) - 1, -1, -1)]:
        words, *places = MOMENTS[number]
        said, found = gdb.monitor(f"event {number}"), []
        for thread in (1, 2):
            gdb.ask(f"Hg{thread}")
            data = bytes.fromhex(gdb.ask("m7f0000000000,10"))
            found += [(int.from_bytes(data[:8], "little"), int.from_bytes(data[8:], "little")),
                      gdb.value("pc")]
        tests.check(f"event {number}", found,
                    [it for place in places for it in (words, BEHIND[place])])
        is_said = said.startswith(f"event {number} of {LAST}: thread ")
        tests.check(f"what is said of event {number}", is_said, number > 0)
    # once a thread moves its words are those after its own last event
    gdb.monitor("event 5")
    gdb.ask("Hc2")
    gdb.ask("s")
    tests.check("a thread that moves on", gdb.monitor("shared").splitlines(),
                ["after event 4 of the history, the last of thread 1 up to count 7",
                 f"w 0 {1:016x}"])
    gdb.close()
    try_alone(tests, client, program, path.read_text())


def try_alone(tests: Any, client: Callable[..., Any], program: pathlib.Path, text: str) -> None:
    """The same run without an order: each thread knows what it found and left."""
    text = text[text.index("smemu-report"):text.index("\nend\n") + 5]
    tests.path("alone.report").write_text(text)
    gdb = client(tests, program, tests.path("alone.report"))
    tests.check("no history", gdb.monitor("event 1").split(":")[0],
                "there is no order of the threads' events in a report")
    tests.check("words that are not known, and one that nobody changes",
                [gdb.ask("m7f0000000000,8"), gdb.ask("m7f0000000010,8")], ["E01", "0" * 16])
    gdb.ask("Z0,400018,4")
    gdb.ask("c")
    tests.check("words that the thread has looked at", gdb.ask("m7f0000000000,10"),
                (1).to_bytes(8, "little").hex() + "0" * 16)
    gdb.close()


# programs that fault, and the signals that Linux sends for it (arch/arm64/mm/fault.c and
# kernel/traps.c), by the numbers of gdb's protocol
FAULTS = (
    ("data", "mov x1, #16\n    ldr x0, [x1]", 11),
    ("data", "mov x0, #1\n    adr x1, _start\n    str x0, [x1]", 11),
    ("fetch", "mov x1, #64\n    br x1", 11),
    ("pcalign", "adr x1, _start\n    add x1, x1, #2\n    br x1", 10),
    ("spalign", "mov x1, sp\n    sub x1, x1, #24\n    mov sp, x1\n    ldr x0, [sp]", 10),
    ("align", "adr x1, _start\n    add x1, x1, #1\n    ldar x0, [x1]", 10),
    ("shared", "mov x1, #0x7f0000000000\n    ldrb w0, [x1]", 10),
    ("breakpoint", "brk #1", 5), ("undefined", "udf #0", 4),
    ("notstreaming", "smstart za\n    smopa za0.s, p0/m, p0/m, z0.b, z1.b", 4),
    ("zainactive", "smstart sm\n    smopa za0.s, p0/m, p0/m, z0.b, z1.b", 4),
)


def try_faults(tests: Any, client: Callable[..., Any]) -> None:
    """A fault is a signal; when gdb has passed it on the record is at its end."""
    for name, body, signal in FAULTS:
        program = tests.assemble("fault", f"    .text\n    .global _start\n_start:\n    {body}\n")
        path = tests.report(program, "fault")
        block = reports.read(path).threads[0]
        gdb = client(tests, program, path)
        stop = f"T{signal:02x}thread:1;"
        found = [gdb.ask("c"), gdb.value("count"), gdb.value("pc"), gdb.ask("s"),
                 gdb.ask(f"C{signal:02x}"), gdb.ask("bs")]
        back = "T05thread:1;" if block.count else "T05thread:1;replaylog:begin;"
        tests.check(f"the fault {name}", [block.stop.words[1], *found],
                    [name, stop, block.count, block.pc, stop, "T05thread:1;replaylog:end;", back])
        gdb.close()


def try_waiting(tests: Any, client: Callable[..., Any]) -> None:
    """gdb is answered while the emulator has not read the report yet."""
    lazy, go = tests.path("lazy_smemu"), tests.path("go")
    wait = f'while [ ! -e "{go}" ]; do sleep 0.02; done'
    lazy.write_text(f'#!/bin/sh\n{wait}\nexec "{tests.smemu}" "$@"\n')
    lazy.chmod(0o755)
    kept, tests.environment = tests.environment, {**tests.environment, "SMEMU": str(lazy)}
    program, path = tests.path("planned.elf"), tests.path("planned.sim")
    # it reads the description of all registers
    gdb = client(tests, program, path)
    found = [gdb.ask(packet)
             for packet in ("vMustReplyEmpty", "?", "qfThreadInfo", "qsThreadInfo", "Hg0",
                            "qAttached")]
    tests.check("before the report is read", found, ["", "T05thread:1;", "m1,2", "l", "OK", "1"])
    go.touch()
    tests.check("after it", gdb.value("pc"), 0x400000)
    gdb.close()
    tests.environment = kept


class Mi:
    """gdb by its machine interface, as editors start it."""

    def __init__(self, tests: Any) -> None:
        self.process = subprocess.Popen(
            ["gdb-multiarch", "-q", "-nx", "--interpreter=mi"], stdin=subprocess.PIPE,
            stdout=subprocess.PIPE, stderr=subprocess.STDOUT, env=tests.environment,
            cwd=tests.folder, text=True, bufsize=1)
        self.lines = queue.Queue()
        threading.Thread(target=self.read, daemon=True).start()

    def read(self) -> None:
        """Takes the lines that gdb writes."""
        for line in self.process.stdout:
            self.lines.put(line.rstrip("\n"))

    def until(self, start: str) -> str:
        """The next line that begins so."""
        while True:
            line = self.lines.get(timeout=SECONDS)
            if line.startswith(start):
                return line

    def ask(self, command: str) -> str:
        """The result of a command."""
        self.process.stdin.write(command + "\n")
        return self.until("^")

    def moved(self, command: str) -> str:
        """Where a move stops."""
        said = self.ask(command)
        return self.until("*stopped") if said == "^running" else said

    def close(self) -> None:
        self.ask("-gdb-exit")
        self.process.stdin.close()
        self.process.wait()
        self.process.stdout.close()


def configurations(tests: Any) -> list[dict[str, Any]]:
    """What examples/vscode/launch.json says, with the files of the tests."""
    text = (TOP / "examples/vscode/launch.json").read_text()
    for name, path in (("lines.elf", tests.path("planned.elf")),
                       ("lines.sim", tests.path("planned.sim")), ("tools", TOP / "tools"),
                       ("smemu", TOP / "smemu")):
        text = text.replace(f"${{workspaceFolder}}/{name}", str(path))
    return json.loads(text.replace("${workspaceFolder}", str(tests.folder)))["configurations"]


def try_editor(tests: Any, held: dict[str, Any]) -> None:
    """The steps that VS Code's debugger for C makes of a configuration."""
    gdb = Mi(tests)
    for command in ("-gdb-set mi-async on", *(it["text"] for it in held["setupCommands"]),
                    f"-environment-cd {held['cwd']}", f"-file-exec-and-symbols {held['program']}"):
        tests.check(command, gdb.ask(command), "^done")
    tests.check("the connection",
                gdb.ask(f"-target-select remote {held['miDebuggerServerAddress']}"), "^connected")
    threads = gdb.ask("-thread-info")
    tests.check("threads",
                re.findall(r'target-id="(Thread \d)",details="(thread \d, count \d+ of \d+)',
                           threads),
                [(f"Thread {at + 1}", f"thread {at}, count 0 of 12") for at in (0, 1)])
    gdb.ask("-break-insert *0x400018")
    stopped = gdb.moved("-exec-continue --thread 2")
    tests.check("a breakpoint",
                ['reason="breakpoint-hit"' in stopped, 'addr="0x0000000000400018"' in stopped,
                 'thread-id="2"' in stopped], [True] * 3)
    tests.check("frames", 'addr="0x0000000000400018"' in gdb.ask("-stack-list-frames 0 1000"), True)
    names = re.findall(r'"([^"]*)"', gdb.ask("-data-list-register-names"))
    number = names.index("pc")
    tests.check("registers", gdb.ask(f"-data-list-register-values x {number}"),
                f'^done,register-values=[{{number="{number}",value="0x400018"}}]')
    tests.check("shared words",
                re.findall('contents="(.*?)"',
                           gdb.ask("-data-read-memory-bytes 0x7f0000000000 16")),
                [(1).to_bytes(8, "little").hex() + "0" * 16])
    variable = gdb.ask('-var-create - * "*(long*)0x7f0000000000"')
    tests.check("a variable", 'value="1"' in variable, True)
    tests.check("vectors",
                [re.findall('value="(.*?)"', gdb.ask(f'-data-evaluate-expression "{it}"'))
                 for it in ("$z0.b.u[0]", "$vg")], [["0"], ["2"]])
    said = gdb.moved("-exec-step-instruction --thread 2 --reverse")
    tests.check("a step back", 'addr="0x0000000000400014"' in said, True)
    tests.check("rwatch",
                "^done" in gdb.ask('-interpreter-exec console "rwatch *(long*)0x7f0000000000"'),
                True)
    tests.check("no watchpoint",
                [gdb.ask("-break-list").count("bkpt={"), "watchpoint" in gdb.ask("-break-list")],
                [1, False])
    gdb.ask('-interpreter-exec console "event 8"')
    tests.check("a common time", re.findall(r"(thread \d, count \d+) of", gdb.ask("-thread-info")),
                ["thread 0, count 9", "thread 1, count 6"])
    gdb.ask("-break-delete 1")
    tests.check("the end",
                ['addr="0x0000000000400030"' in gdb.moved("-exec-continue --thread 1"),
                 gdb.ask("-target-detach")], [True, "^done"])
    gdb.close()


def try_editors(tests: Any) -> None:
    """Over the pipe, and over a port that is free."""
    if not shutil.which("gdb-multiarch"):
        return
    pipe, port = configurations(tests)
    try_editor(tests, pipe)
    words = port["debugServerArgs"].split()
    words[-1] = "0"
    tests.check("the configuration of the port",
                [port["debugServerPath"], words[0], words[-2],
                 port["miDebuggerServerAddress"].partition(":")[0]],
                [str(TOP / "smemu"), "gdb", "--port", "localhost"])
    server = subprocess.Popen([port["debugServerPath"], *words], stderr=subprocess.PIPE,
                              env=tests.environment, text=True)
    said = server.stderr.readline()
    tests.check("what VS Code waits for", said.startswith(port["serverStarted"]), True)
    try_editor(tests, {**port, "miDebuggerServerAddress": f"localhost:{said.split()[-1]}"})
    tests.check("the server's end", server.wait(timeout=SECONDS), 0)
    server.stderr.close()


def try_port(tests: Any, client: Callable[..., Any]) -> None:
    """A report that is refused is told before anything is waited for."""
    program = tests.path("planned.elf")
    tests.check("a file that is no report, at a port",
                tests.run(TOOL, "gdb", program, program, "--port", 0)[0], 9)
    tests.check("no port",
                tests.run(TOOL, "gdb", program, tests.path("planned.sim"), "--port", 65536)[0], 2)


def data_of(text: str) -> dict[str, Any]:
    """The first report in a page."""
    return json.loads(re.search(r'id="data">(.*?)</script>', text)[1])["reports"][0]


# of the events of a thread of examples/race.s the instruction before which it stands
MADE = {"lock": "ldar x4, [x2]", "set": "stlr x3, [x2]", "read": "ldr x5, [x2, #8]",
        "add": "str x5, [x2, #8]", "open": "stlr xzr, [x2]"}


def try_page(tests: Any, _: Any) -> None:
    """With the program the page has the place of each event, and the lines of one that has them."""
    for program, path in ((tests.path("planned.elf"), tests.path("planned.sim")),
                          (tests.path("planned.elf"), tests.path("alone.report"))):
        held = data_of(tests.run(TOOL, "show", path, "--page", "--program", program)[1])
        wanted = [MADE[name] for name in ("lock", "set", "read", "add", "open")]
        found = [[held["places"][address][2] for _, address in thread["at"]]
                 for thread in held["threads"]]
        # instructions before each: two, the test of the lock, none, the addition, none
        tests.check(f"events of {path.name}",
                    [found, [[count for count, _ in thread["at"]] for thread in held["threads"]]],
                    [[wanted] * 2, [[2, 4, 5, 7, 8]] * 2])
        tests.check("behind the end",
                    [held["places"][thread["pc"].lstrip("0")][::2] for thread in held["threads"]],
                    [["behind", "svc #0"]] * 2)
    tests.check("without the program",
                data_of(tests.run(TOOL, "show", path, "--page")[1])["places"], {})
    # a poll has no place, and a handler's first instruction is not the place that it interrupts
    program, path = tests.path("operations.elf"), tests.report(tests.path("operations.elf"),
                                                               "sliced", "--slice", 7)
    thread, = data_of(tests.run(TOOL, "show", path, "--page", "--program", program)[1])["threads"]
    polls = [count for (count, address), event in zip(thread["at"], thread["journal"])
             if event[0] == "poll" and not address]
    tests.check("polls", polls, list(range(7, thread["count"], 7)))
    tests.check("other events without a place",
                [event[0] for (_, address), event in zip(thread["at"], thread["journal"])
                 if not address and event[0] != "poll"], ["st"])
    if shutil.which("aarch64-linux-gnu-as") and shutil.which("aarch64-linux-gnu-ld"):
        try_lines(tests)


def try_lines(tests: Any) -> None:
    """Of a program with lines each event has its function, its line and the text of that."""
    source = TOP / "examples/race.s"
    tests.run("aarch64-linux-gnu-as", "-g", "-march=armv9-a+sme", source, "-o",
              tests.path("lines.o"))
    tests.run("aarch64-linux-gnu-ld", "-static", tests.path("lines.o"), "-o",
              tests.path("lines.elf"))
    tests.path("lines.sim").write_text(tests.run(tests.smemu, "sim", tests.path("lines.elf"),
                                                 tests.path("planned.plan"), "--threads", 2,
                                                 "--cores", 2)[1])
    held = data_of(tests.run(TOOL, "show", tests.path("lines.sim"), "--page", "--program",
                             tests.path("lines.elf"))[1])
    texts = source.read_text().splitlines()
    numbers = [next(at for at, text in enumerate(texts, 1) if text.strip().startswith(MADE[name]))
               for name in ("lock", "set", "read", "add", "open")]
    wanted = [["lock", f"race.s:{number}", texts[number - 1].strip()] for number in numbers]
    tests.check("lines",
                [[held["places"][address][:2] + held["places"][address][3:] for _,
                  address in thread["at"]] for thread in held["threads"]], [wanted] * 2)


def try_drawn(tests: Any, _: Any) -> None:
    """Chromium draws each event of a history in its lane, the words after it beside it, and
    the words after an event that is chosen."""
    if not shutil.which("chromium"):
        return
    program, path = tests.path("planned.elf"), tests.path("planned.sim")
    text = tests.run(TOOL, "show", path, "--page", "--program", program)[1]
    chosen, page = 6, tests.path("planned.html")
    choose = f"<script>choose({{number: {chosen}}})</script></body>"
    page.write_text(text.replace("</body>", choose))
    cells = script_tests.Cells(tests.run(
        "chromium", "--headless", "--no-sandbox", "--disable-gpu", "--virtual-time-budget=2000",
        f"--user-data-dir={tests.path('chromium')}", "--window-size=1440,900", "--dump-dom",
        page.as_uri())[1])
    wanted = []
    for number, (thread, event) in enumerate(reports.read(path).history):
        lanes = ["", ""]
        lanes[thread] = str(event).replace("->", "\u2192")
        wanted.append([str(number), *map(str, MOMENTS[number + 1][0]), *lanes])
    tests.check("the lanes of a history", [row for row in cells.rows["events"] if row], wanted)
    words = [cells.registers.get(f"word {number}") for number in (0, 1)]
    tests.check("the words after an event", words, [str(it) for it in MOMENTS[chosen + 1][0]])


def try_orders(tests: Any, _: Any) -> None:
    """An order that is found is a page, of what `sim` makes of its plan."""
    program = tests.path("planned.elf")
    status, said = tests.run(TOOL, "outcomes", program, "--threads", 2, "--page")
    names = re.findall(r"(?m)    (planned\.\d)\.plan planned\.\d\.html$", said)
    tests.check("pages of orders", [status, names], [1, ["planned.1", "planned.2"]])
    for name in names:
        held = data_of(tests.path(name + ".html").read_text())
        written = tests.run(tests.smemu, "sim", program, tests.path(name + ".plan"), "--threads",
                            2, "--cores", 2)[1]
        wanted = [line.split()[1:] for line in written.splitlines() if line.startswith("h ")]
        tests.check(f"the history of {name}",
                    [[str(thread), kind, str(place), *(it.zfill(16) for it in values)] for thread,
                     kind, place, *values in held["history"]], wanted)
        tests.check(f"the places of {name}",
                    all(address for thread in held["threads"] for _, address in thread["at"]),
                    True)
    # a lock that is taken by one exchange, and is not opened
    source = (TOP / "examples/race.s").read_text().replace("ldar x4", "swpa x3, x4")
    lines = [line for line in source.splitlines(True) if not re.match(r" +stlr x(3|zr),", line)]
    kept = tests.assemble("kept", "".join(lines))
    said = tests.run(TOOL, "outcomes", kept, "--threads", 2, "--page")[1]
    pages = [data_of(tests.path(f"kept.{at}.html").read_text())
             for at in range(1, said.count(".html") + 1)]
    tests.check("an order without an end",
                ["no end" in said,
                 [any(thread["at"] for thread in it["threads"]) for it in pages][-1]],
                [True, False])
    plan, written = tests.path(f"kept.{len(pages)}.plan"), tests.path("kept.sim")
    written.write_text(tests.run(tests.smemu, "sim", kept, plan, "--threads", 2, "--cores", 2)[1])
    tests.check("a record without an end", tests.run(TOOL, "gdb", kept, written),
                (9, "thread 0 has not stopped, and a record is gone over where all threads have\n"))
    tests.check("a page without a name",
                tests.run(TOOL, "outcomes", program, "--threads", 2, "--page", "--plans", "")[0], 2)
    try_progress(tests, program)


def try_progress(tests: Any, program: pathlib.Path) -> None:
    """A search says how many states it has, how many are left, and how many orders go on."""
    told: list[str] = []
    teller = argparse.Namespace(show=told.append, clear=lambda: None)
    options = dict.fromkeys(("vl", "svl", "slice", "budget", "switches"))
    for most, states in ((20000, 62), (30, 30)):
        told.clear()
        words = argparse.Namespace(program=program, threads=2, cores=2, states=most, jobs=2,
                                   show=["words"], **options)
        with mock.patch.object(progress, "Progress", lambda: teller):
            search, is_cut = outcomes.look(words)
        form = (r"states (\d+), (\d+) left of --states; orders that go on: (\d+) with (\d+) "
                r"changes? of thread, (\d+) with (\d+); outcomes (\d+)")
        found = [[int(it) for it in re.fullmatch(form, text).groups()] for text in told]
        tests.check(f"how far, of {most}", [len(search.nodes), is_cut], [states, most == 30])
        tests.check(f"states that are left of {most}",
                    [[one + left, more - less] for one, left, _, less, _, more, _ in found],
                    [[most, 1]] * len(found))
        tests.check(f"states are more and more, of {most}",
                    found, sorted(found, key=lambda it: (it[3], it[0])))
        tests.check(f"orders go on, of {most}",
                    max(it[2] for it in found) > 0 and max(it[4] for it in found) > 0, True)


# what gdb is asked of a fault over QEMU and over a record; QEMU in user mode does not check the
# alignment of SP, nor know of shared words and of ZA
ALIKE = ("ptype $z0", "ptype $z31.b", "whatis $z0.b.u", "whatis $z0.q.u", "whatis $z0.s.f",
         "whatis $p0", "whatis $ffr", "whatis $vg", "print $vg", "print $z0.b.u[31]", "continue")
CHECKED = ("data", "fetch", "pcalign", "align", "breakpoint", "undefined")


def try_beside_qemu(tests: Any) -> None:
    """gdb says of a fault, and of the names and types of vectors, what it says over QEMU."""
    if not all(map(shutil.which,
                   ("qemu-aarch64", "gdb-multiarch", "aarch64-linux-gnu-as",
                    "aarch64-linux-gnu-ld"))):
        return
    asked, socket = [it for line in ALIKE for it in ("-ex", line)], tests.path("qemu.socket")
    for name, body, _ in FAULTS:
        if name not in CHECKED:
            continue
        tests.path("both.s").write_text(f"    .text\n    .global _start\n_start:\n    {body}\n")
        tests.run("aarch64-linux-gnu-as", "-march=armv9-a+sme", tests.path("both.s"), "-o",
                  tests.path("both.o"))
        tests.run("aarch64-linux-gnu-ld", "-static", tests.path("both.o"), "-o",
                  tests.path("both.elf"))
        path = tests.report(tests.path("both.elf"), "both", "--vl", 256, "--svl", 256)
        qemu = subprocess.Popen(["qemu-aarch64", "-cpu", "max,sve-default-vector-length=32", "-g",
                                 socket, tests.path("both.elf")], stderr=subprocess.DEVNULL)
        while not socket.exists() and qemu.poll() is None:
            time.sleep(0.02)
        said = []
        for target in (socket, f"| {TOOL} gdb both.elf {path}"):
            text = tests.run("gdb-multiarch", "-q", "-nx", "-batch", "-ex",
                             f"target remote {target}", *asked, "both.elf")[1]
            said.append([line for line in text.splitlines()
                         if re.match(r"type|\$|Program|    union|0x", line)])
        qemu.kill()
        qemu.wait()
        socket.unlink(missing_ok=True)
        tests.check(f"{name}, beside QEMU", [said[1], len(said[0]) > len(ALIKE)], [said[0], True])


def try_all(tests: Any, client: Callable[..., Any]) -> None:
    for test in (try_events, try_history, try_faults, try_waiting, try_port, try_page, try_drawn,
                 try_orders):
        test(tests, client)
    try_editors(tests)
    try_beside_qemu(tests)
