"""Tries smemu gdb, when, za-calls and outcomes.

    tools/smemu-tools beside-tests [PROGRAM]

PROGRAM is the emulator; where it is not given it is what ./smemu runs. What gdb shows at a count is compared with the report of a run with that
budget, the outcomes of ten litmus tests with those that the literature allows where memory is sequentially consistent, and the numbers of their
orders with multinomial coefficients; what becomes of ZA over a call is what the sources say. gdb-multiarch is asked too, where it is on the PATH.
"""
import itertools
import math
import os
import pathlib
import pty
import re
import shutil
import subprocess
import sys
import tempfile

from smemu_tools import TOOL, TOP, parser
from smemu_tools.tests import gdb_tests
from smemu_tools.user import emulator, recorded, reports

SAMPLES = pathlib.Path(__file__).resolve().parent / "samples"
SVL = 128


class Tests:
    """A folder for files, and the faults that were found."""

    def __init__(self, smemu, folder):
        self.smemu, self.folder, self.faults, self.number = smemu, pathlib.Path(folder), 0, 0
        self.environment = {**os.environ, "SMEMU": smemu}

    def check(self, what, found, wanted):
        self.number += 1
        if found != wanted:
            self.faults += 1
            print(f"{what}:\n  wanted: {wanted!r}\n  found:  {found!r}")

    def path(self, name):
        return self.folder / name

    def run(self, *words):
        """The status of a command, and all that it writes."""
        ended = subprocess.run([str(it) for it in words], stdout=subprocess.PIPE, stderr=subprocess.STDOUT, stdin=subprocess.DEVNULL,
                               env=self.environment, cwd=self.folder, text=True, errors="replace")
        return ended.returncode, ended.stdout

    def assemble(self, name, source):
        """The program of a source."""
        self.path(name + ".s").write_text(source)
        program = self.path(name + ".elf")
        ended = subprocess.run([self.smemu, "asm", self.path(name + ".s")], stdout=subprocess.PIPE)
        if ended.returncode:
            sys.exit(f"{name}.s: {ended.stdout.decode()}")
        program.write_bytes(ended.stdout)
        return program

    def report(self, program, name, *options):
        """The report of a run, in a file."""
        path = self.path(name + ".report")
        path.write_text(subprocess.run([self.smemu, "run", program, *map(str, options)], stdout=subprocess.PIPE, text=True, check=True).stdout)
        return path


# gdb's protocol


class Client:
    """The other end of gdb's protocol."""

    def __init__(self, tests, *words):
        self.server = subprocess.Popen([str(it) for it in (sys.executable, TOOL, "gdb", *words)], stdin=subprocess.PIPE, stdout=subprocess.PIPE,
                                       stderr=open(tests.path("gdb.said"), "w"), env=tests.environment, bufsize=0)
        self.said, self.waiting = [], b""
        self.ask("qSupported:swbreak+")
        self.ask("QStartNoAckMode")
        description = ""
        while not description.startswith("l"):
            part = self.ask(f"qXfer:features:read:target.xml:{len(description):x},8000")
            description = part[0] + description[1:] + part[1:]
        self.registers = {name: (int(number), int(bits)) for name, bits, number in re.findall(r'<reg name="(\w+)" bitsize="(\d+)" regnum="(\d+)"', description)}

    def ask(self, packet):
        """The answer to a packet."""
        self.send(packet)
        return self.answer()

    def send(self, packet):
        data = packet.encode()
        self.server.stdin.write(b"$%s#%02x" % (data, sum(data) & 255))

    def answer(self):
        """The next packet that is an answer. What is said besides is kept."""
        while True:
            found = re.search(rb"\$([^#]*)#..", self.waiting)
            if not found:
                self.waiting += self.server.stdout.read(65536) or sys.exit("gdb has ended")
                continue
            self.waiting = self.waiting[found.end():]
            answer = found[1].decode()
            if not re.match("O[0-9a-f]", answer):
                return answer
            self.said.append(bytes.fromhex(answer[1:]).decode().strip())

    def register(self, name):
        """The bytes of a register."""
        number, bits = self.registers[name]
        data = bytes.fromhex(self.ask(f"p{number:x}"))
        assert 8 * len(data) == bits, name
        return data

    def value(self, name):
        return int.from_bytes(self.register(name), "little")

    def monitor(self, line):
        return bytes.fromhex(self.ask("qRcmd," + line.encode().hex())).decode().strip()

    def close(self):
        self.ask("D")
        self.server.stdin.close()
        self.server.stdout.close()
        self.server.wait()


def wanted_of(thread, rows, longest):
    """The registers of a report's block, by gdb's names."""
    length = lambda data: data.ljust(longest, b"\0")
    wanted = {f"x{n}": thread.x[n].to_bytes(8, "little") for n in range(31)}
    wanted.update({f"z{n}": length(thread.z[n]) for n in range(32)})
    wanted.update({f"p{n}": thread.p[n].ljust(longest // 8, b"\0") for n in range(16)})
    za = thread.za or [bytes(rows)] * rows
    wanted.update({f"za{n}": za[n] for n in range(rows)})
    wanted.update({f"za{tile}s": b"".join(za[tile::4]) for tile in range(4)})
    wanted.update({f"za{tile}d": b"".join(za[tile::8]) for tile in range(8)})
    wanted.update(sp=thread.sp.to_bytes(8, "little"), pc=thread.pc.to_bytes(8, "little"), svcr=thread.svcr.to_bytes(8, "little"))
    return {**wanted, "cpsr": (int(thread.nzcv, 2) << 28).to_bytes(4, "little"), "count": thread.count.to_bytes(8, "little")}


def by_budget(tests, program, most, *options):
    """The threads of the runs with each budget up to one."""
    return [None] + [reports.read(tests.report(program, "budget", "--budget", n, *options)).threads[0] for n in range(1, most + 1)]


def try_protocol(tests):
    """The registers at each count, forwards and back, and breakpoints, watchpoints and memory."""
    program = tests.assemble("lost", (TOP / "examples/lost.s").read_text())
    for options in (("--svl", SVL), ("--svl", SVL, "--vl", 256)):
        whole, rows = tests.report(program, "lost", *options), SVL // 8
        report = reports.read(whole)
        end, longest = report.threads[0].count, max(report.vl, report.svl) // 8
        threads = by_budget(tests, program, end, *options)
        gdb = Client(tests, program, whole)
        for count in [*range(1, end + 1), *range(end - 1, 0, -1)]:
            gdb.ask("s" if count > gdb.value("count") else "bs")
            wanted = wanted_of(threads[count], rows, longest)
            tests.check(f"registers at {count}", {name: gdb.register(name) for name in wanted}, wanted)
        tests.check("back to the start", [gdb.ask("bs"), gdb.ask("bs"), gdb.value("count")], ["T05thread:1;", "T05thread:1;replaylog:begin;", 0])
        try_moves(tests, gdb, threads, end)
        gdb.close()


def try_moves(tests, gdb, threads, end):
    """Breakpoints and watches, from the start on."""
    after_call = 0x400018
    hit = next(n for n in range(1, end) if threads[n].pc == after_call)
    tests.check("Z0", gdb.ask(f"Z0,{after_call:x},4"), "OK")
    tests.check("to a breakpoint", [gdb.ask("c"), gdb.value("count")], ["T05thread:1;swbreak:;", hit])
    said = [f"thread 0 ends at count {end}: stop exited 14"]
    tests.check("to the end", [gdb.ask("c"), gdb.value("count"), gdb.said], ["T05thread:1;replaylog:end;", end, said])
    tests.check("back to a breakpoint", [gdb.ask("bc"), gdb.value("count")], ["T05thread:1;swbreak:;", hit])
    tests.check("back to the start", [gdb.ask("bc"), gdb.value("count")], ["T05thread:1;replaylog:begin;", 0])
    gdb.ask(f"z0,{after_call:x},4")
    stored = next(n for n in range(1, end) if threads[n].digest != threads[n + 1].digest)
    gdb.ask("Z2,401000,8")
    # gdb makes the step over the store itself
    tests.check("to a store", [gdb.ask("c"), gdb.value("count")], ["T05thread:1;watch:401000;", stored])
    gdb.ask("s")
    tests.check("memory", [gdb.ask("m401000,10"), gdb.ask("m0,4")], [threads[stored].za[0].hex(), "E01"])
    tests.check("no more stores", gdb.ask("c"), "T05thread:1;replaylog:end;")
    tests.check("back to the store", [gdb.ask("bc"), gdb.value("count")], ["T05thread:1;watch:401000;", stored + 1])
    gdb.ask("z2,401000,8")
    changes = [n for n in range(1, end) if any(threads[n].za or []) != any(threads[n + 1].za or []) or (threads[n].za and threads[n].za != threads[n + 1].za)]
    gdb.monitor("goto 0")
    gdb.monitor("watch za")
    forwards = [(gdb.ask("c"), gdb.value("count")) for _ in changes]
    tests.check("watch za", forwards, [("T00thread:1;", n + 1) for n in changes])
    gdb.monitor(f"goto {end}")
    backwards = [(gdb.ask("bc"), gdb.value("count")) for _ in changes]
    tests.check("watch za, back", backwards, [("T00thread:1;", n) for n in reversed(changes)])
    tests.check("unwatch", [gdb.monitor("unwatch"), gdb.ask("bc")], ["nothing is watched", "T05thread:1;replaylog:begin;"])
    tests.check("writes", [gdb.ask("P0=0"), gdb.ask("G00"), gdb.ask("M401000,1:00"), gdb.ask("X401000,0:")], ["E.a record is not changed"] * 4)
    tests.check("monitor", [gdb.monitor("where"), gdb.monitor("nothing")], ["at 0 0000000000400000 smstart", "no line of a script: nothing: unknown"])


def try_threads(tests):
    """Each thread of a report at its own count."""
    program = tests.assemble("threads", (TOP / "examples/threads.s").read_text())
    whole = tests.report(program, "threads", "--threads", 3, "--slice", 9, "--svl", SVL)
    report = reports.read(whole)
    gdb = Client(tests, program, whole, 1)
    tests.check("threads", [gdb.ask("qfThreadInfo"), gdb.ask("qsThreadInfo"), gdb.ask("?")], ["m1,2,3", "l", "T05thread:2;"])
    for number in (2, 0, 1):
        gdb.ask(f"Hc{number + 1}")
        tests.check("the thread that moves", gdb.ask("c"), f"T05thread:{number + 1};replaylog:end;")
    for thread in report.threads:
        gdb.ask(f"Hg{thread.number + 1}")
        wanted = wanted_of(thread, SVL // 8, SVL // 8)
        tests.check(f"thread {thread.number}", {name: gdb.register(name) for name in wanted}, wanted)
    gdb.close()


def try_refusals(tests):
    """What is refused is told by the line of the command itself, with its status."""
    script = tests.path("where.script")
    script.write_text("where\n")
    for report, thread in (("lost.report", 0), ("threads.report", 5), ("lost.s", 0), ("nothing", 0)):
        words = (tests.path("threads.elf"), tests.path(report), thread)
        tests.check(f"gdb {report}", tests.run(TOOL, "gdb", *words), tests.run(tests.smemu, "debug", *words, script))


def try_calls(tests):
    """A hundred steps take few calls, and so does a place in a hot loop."""
    source = "_start:\n    mov x1, #1\n    lsl x1, x1, #18\nloop:\n    add x0, x0, #1\n    sub x1, x1, #1\n    cbnz x1, loop\n    mov x8, #93\n    svc #0\n"
    program = tests.assemble("loop", source)
    thread = recorded.Recorded(program, tests.report(program, "loop"), 0)
    calls, call = [], emulator.call
    emulator.call = lambda *words, **more: calls.append(words) or call(*words, **more)
    pcs = [thread.state(400000 + n).pc for n in range(101)] + [thread.state(400000 - n, backwards=True).pc for n in range(101)]
    tests.check("a hundred steps", [pcs, len(calls) <= 8], [[0x400008 + 4 * ((400000 + n - 2) % 3) for n in (*range(101), *range(0, -101, -1))], True])
    calls.clear()
    backwards = [thread.last_hit(count, [address]) for count, address in ((400000, 0x400008), (400000, 0x400004), (1, 0x400004), (786433, 0x40000c))]
    tests.check("hits", [thread.next_hit(400000, [0x400008]), *backwards, thread.all_hits(0x400010)[-1]], [400001, 399998, 1, None, 786432, 786433])
    changes = [thread.next_change(400000, "x 0"), thread.last_change(400000, "x 0"), thread.last_change(thread.end, "x 8"), thread.next_change(0, "za")]
    tests.check("changes", [*changes, len(calls) <= 40], [400001, 399998, 786434, None, True])
    emulator.call = call


def try_interrupt(tests):
    """Ctrl-C ends a search, and gdb stands where it stood."""
    gdb = Client(tests, tests.path("loop.elf"), tests.path("loop.report"))
    gdb.ask("Z2,400000,8")
    gdb.send("c")
    gdb.server.stdin.write(b"\x03")
    tests.check("Ctrl-C", [gdb.answer(), gdb.value("count")], ["T02thread:1;", 0])
    gdb.close()


def try_terminal(tests):
    """At a terminal gdb is started, connected, with a command that goes to a count."""
    main, side = pty.openpty()
    started = subprocess.Popen([sys.executable, TOOL, "gdb", "lost.elf", "lost.report"], stdin=side, stdout=side, stderr=side, cwd=tests.folder,
                               env={**tests.environment, "TERM": "dumb"}, start_new_session=True)
    os.close(side)
    os.write(main, b"goto 9\nprint $za0s[0]\nquit\n")
    said = b""
    try:
        while part := os.read(main, 65536):
            said += part
    except OSError:
        # the other side is closed
        pass
    started.wait()
    os.close(main)
    tests.check("gdb at a terminal", [started.returncode, b"$1 = {4, 4, 4, 4}" in said], [0, True])


def try_gdb(tests):
    """gdb itself, where it is there."""
    if not shutil.which("gdb-multiarch"):
        print("gdb-multiarch is not there")
        return
    script = tests.path("lost.gdb")
    script.write_text(f"""target remote | {TOOL} gdb lost.elf lost.report
break *0x400018
continue
print $za0.s.u
print $za1s
reverse-stepi
reverse-stepi
print $za0s
delete
watch *(int*)0x401000
continue
x/i $pc
reverse-continue
x/i $pc
monitor watch za
reverse-continue
print $count
print $x0 = 1
""")
    tests.report(tests.path("lost.elf"), "lost", "--svl", SVL)
    said = tests.run("gdb-multiarch", "-q", "-batch", "-x", script, "lost.elf")[1]
    zero = "{{0, 0, 0, 0}, {0, 0, 0, 0}, {0, 0, 0, 0}, {0, 0, 0, 0}}"
    wanted = ["$1 = {4, 4, 4, 4}", f"$2 = {zero}", f"$3 = {zero}", "Old value = 0", "New value = 14", "=> 0x400028:\tsmstop", "Old value = 14", "New value = 0",
              "=> 0x400024:\tstr\tza[w12, 0], [x1]", "za: changed at 9 0000000000400018 smopa za0.s, p0/m, p0/m, z0.b, z1.b", "$4 = 9"]
    found = [line for line in said.splitlines() if re.match(r"\$|Old|New|=>|za:|Could", line)]
    tests.check("gdb-multiarch", [it.split("  ")[0].rstrip() for it in found], [*wanted, 'Could not write register "x0"; remote failure reply \'E.a record is not changed\''])
    try_terminal(tests)


# reports of both versions


# of examples/signals.s, which tools/smemu_tools/model/expected.py wrote: the version, and SP in the handler and ZA's place in its frame
VERSIONS = ((1, 0x7dfffffffb80, 896), (2, 0x7dfffffffb70, 912))
# the counts of the handler's second instruction and its last one, and the first row of the interrupted ZA
SECOND, LAST, ROW = 1001, 1008, "0a0000000a0000000a0000000a000000"


def try_versions(tests):
    """The scripts go over reports of both versions, each by its own kernel."""
    program = tests.assemble("signals", (TOP / "examples/signals.s").read_text())
    for version, frame, place_of_za in VERSIONS:
        whole, handled = (SAMPLES / f"{name}.{version}.report" for name in ("signals", "handled"))
        tests.check(f"replay of version {version}", [tests.run(tests.smemu, "replay", program, path, 0)[0] for path in (whole, handled)], [0, 0])
        gdb = Client(tests, program, whole)
        gdb.monitor(f"goto {SECOND}")
        found = [gdb.value("sp"), gdb.value("x1"), gdb.ask(f"m{frame + place_of_za:x},10"), gdb.ask(f"m{frame + 7:x},1")]
        tests.check(f"gdb in the handler of version {version}", found, [frame, frame, ROW, f"{ord(str(version)):x}"])
        gdb.close()
        gdb = Client(tests, program, handled)
        tests.check(f"info threads of version {version}", bytes.fromhex(gdb.ask("qThreadExtraInfo,1")).decode(), "thread 0, count 0 of 1003, then budget, within 1 handler")
        gdb.close()
        status, said = tests.run(TOOL, "when", program, whole, 0, "sp", "--most", 9)
        counts, values = re.findall(r"(?m)^at (\d+) ", said), re.findall(r"(?m)^  ([-+] \w+)$", said)
        top = f"{0x7e0000000000:016x}"
        tests.check(f"when of version {version}", [status, [int(it) for it in counts], values],
                    [0, [SECOND - 1, LAST], [f"- {top}", f"+ {frame:016x}", f"- {frame:016x}", f"+ {top}"]])
        # the report says where ZA is saved; the program makes no call with it on
        status, said = tests.run(TOOL, "za-calls", program, whole)
        tests.check(f"za-calls of version {version}", [status, said.split(":")[0]], [0, "calls 0, with ZA on 0"])
    tests.check("show of both versions", tests.run(TOOL, "show", *(SAMPLES / f"signals.{version}.report" for version in (1, 2)))[1].splitlines()[::2],
                ["smemu-report: 1, 2", "inside: 0, no line", "depth: no line, 0"])


# of examples/nested.s without its mask: the counts at which its handlers stand at their second instruction, and SP there
NESTED = ((1001, 0x7dfffffffc70), (2001, 0x7dfffffff7e0))
# the signal is posted at count 12, is in the mask up to count 17, and can come at counts up to 22
WINDOW = """
    .global _start
_start:
    mov x0, #5
    adr x1, handler
    mov x8, #134
    svc #0
    mov x0, #0
    mov x1, #32
    mov x8, #135
    svc #0
    mov x0, #0
    mov x1, #5
    mov x8, #131
    svc #0
    nop
    nop
    mov x0, #1
    mov x1, #32
    mov x8, #135
    svc #0
    nop
    nop
    mov x0, #0
    mov x8, #93
    svc #0
handler:
    mov x8, #139
    svc #0
"""


def try_nested(tests):
    """A handler within a handler, a mask that keeps it out, and what the scripts say of both."""
    source = (TOP / "examples/nested.s").read_text()
    masked, plain = tests.assemble("nested", source), tests.assemble("unmasked", source.replace("    bl mask_second\n", ""))
    both = [tests.report(program, program.stem, "--svl", SVL) for program in (masked, plain)]
    tests.check("with a mask, and without", [reports.read(path).threads[0].stop.status for path in both], [28, 20])
    gdb = Client(tests, plain, both[1])
    for count, sp in NESTED:
        gdb.monitor(f"goto {count}")
        tests.check(f"the handler at {count}", gdb.value("sp"), sp)
    gdb.close()
    inside = reports.read(tests.report(plain, "inside", "--svl", SVL, "--budget", NESTED[1][0])).threads[0]
    tests.check("within both", [inside.depth, inside.mask, inside.held], [2, 1 << 5 | 1 << 6, 0])
    status, said = tests.run(TOOL, "outcomes", tests.assemble("window", WINDOW), "--signal", 5)
    tests.check("outcomes of a signal in the mask", [status, *said.splitlines()], [
        0, "signal 5 comes to thread 0 at 11 places, by --slice", "  after the handler all is as before at 5 places, not at 0",
        "  at 6 places it is in the mask, and comes later (the first at count 12)", "  11 end so: exit 0"])


# when and za-calls


CALLS = """
    .text
    .global _start
_start:
    adr x19, block
    smstart
    ptrue p0.b, all
    index z0.b, #1, #1
    dup z1.b, #1
    smopa za0.s, p0/m, p0/m, z0.b, z1.b
    bl quiet
    msr tpidr2_el0, x19
    bl private
    smstart za
    mrs x0, tpidr2_el0
    cbnz x0, still
    mov x0, x19
    bl restore
still:
    msr tpidr2_el0, xzr
    mov x0, #0
    mov x8, #93
    svc #0
quiet:
    ret
private:
    ldr x9, [x19]
    mov w12, #0
save:
    str za[w12, 0], [x9]
    add x9, x9, #16
    add w12, w12, #1
    cmp w12, #16
    b.ne save
    msr tpidr2_el0, xzr
    smstop za
    ret
restore:
    ldr x9, [x0]
    mov w12, #0
load:
    ldr za[w12, 0], [x9]
    add x9, x9, #16
    add w12, w12, #1
    cmp w12, #16
    b.ne load
    ret
    .data
block:
    .quad buffer
    .quad 16
buffer:
    .zero 256
"""
# a change of the source, and what then becomes of ZA over the calls of it
FAULTS = (
    ("", "", "kept 1, saved 1, restored 1, shared 0, changed 0, lost 0", 0),
    # the function makes no copy, so that zeros are loaded where zeros are; one of other bytes; or gives ZA back as if it were as before
    ("    str za[w12, 0], [x9]\n", "", "kept 2, saved 0, restored 0, shared 0, changed 0, lost 1", 1),
    ("    ldr x9, [x19]\n", "    ldr x9, [x19]\n    zero #1\n", "kept 1, saved 0, restored 1, shared 0, changed 0, lost 1", 1),
    ("private:\n", "private:\n    zero #255\n    ret\n", "kept 1, saved 0, restored 0, shared 0, changed 0, lost 1", 1),
    # ZA is made zero, then saved and restored so, or made another, over a call that is to keep it
    ("quiet:\n", "quiet:\n    smstop za\n    smstart za\n", "kept 1, saved 1, restored 0, shared 0, changed 1, lost 0", 1),
    ("quiet:\n", "quiet:\n    smopa za0.s, p0/m, p0/m, z0.b, z1.b\n", "kept 0, saved 1, restored 1, shared 0, changed 1, lost 0", 1),
)


def try_za(tests):
    """What becomes of ZA over calls, and when it changes."""
    for at, (old, new, wanted, status) in enumerate(FAULTS):
        program = tests.assemble(f"calls{at}", CALLS.replace(old, new, 1) if old else CALLS)
        found = tests.run(TOOL, "za-calls", program, tests.report(program, f"calls{at}", "--svl", SVL))
        tests.check(f"za-calls, {new!r} for {old!r}", [found[0], found[1].splitlines()[-2].partition(": ")[2]], [status, f"{wanted}, not returned 0"])
    program, whole = tests.path("lost.elf"), tests.report(tests.path("lost.elf"), "lost", "--svl", SVL)
    tests.check("za-calls of lost.s", tests.run(TOOL, "za-calls", program, whole),
                (1, "0000000000400014 calls 0000000000400038: changed 1: counts 5 to 9\n"
                    "calls 1, with ZA on 1: kept 0, saved 0, restored 0, shared 0, changed 1, lost 0, not returned 0\n"
                    "abi-check: no call of this run is marked\n"))
    threads = by_budget(tests, program, reports.read(whole).threads[0].count, "--svl", SVL)
    rows = lambda thread: [row for row in (thread.za or []) if any(row)]
    changes = [n for n in range(1, len(threads) - 1) if rows(threads[n]) != rows(threads[n + 1])]
    for order, options in ((changes, ()), (changes[::-1], ("--last",))):
        status, said = tests.run(TOOL, "when", program, whole, 0, "za", "--most", 99, *options)
        tests.check(f"when za {options}", [status, [int(it) for it in re.findall(r"(?m)^at (\d+) ", said)]], [0, order])
    # without a section table there is no listing, and each count is looked at
    stripped = tests.path("stripped.elf")
    image = bytearray(program.read_bytes())
    image[40:48], image[60:62] = bytes(8), bytes(2)
    stripped.write_bytes(image)
    status, said = tests.run(TOOL, "when", stripped, tests.report(stripped, "stripped", "--svl", SVL), 0, "za", "--most", 99)
    tests.check("when za without a listing", [status, [int(it) for it in re.findall(r"(?m)^at (\d+) ", said)]], [0, changes])
    tests.check("when sp", tests.run(TOOL, "when", program, whole, 0, "sp"), (1, "sp: no change\n"))
    tests.check("when w0", tests.run(TOOL, "when", program, whole, 0, "x", 0, "--last"),
                (0, "at 14 000000000040002c: ldr w0, [x1]\n  - 0000000000000000\n  + 000000000000000e\n"))


# outcomes


# of each litmus test the operations of its threads, the words that are shown at its end, and what sequential consistency forbids of reads and words
LITMUS = {
    "SB": (["Wx1 Ry", "Wy1 Rx"], "", {(0, 0)}),
    "MP": (["Wx1 Wy1", "Ry Rx"], "", {(1, 0)}),
    "LB": (["Rx Wy1", "Ry Wx1"], "", {(1, 1)}),
    "CoRR": (["Wx1", "Rx Rx"], "", {(1, 0)}),
    "2+2W": (["Wx1 Wy2", "Wy1 Wx2"], "xy", {(1, 1)}),
    "S": (["Wx2 Wy1", "Ry Wx1"], "x", {(1, 2)}),
    "R": (["Wx1 Wy1", "Wy2 Rx"], "y", {(0, 2)}),
    "WRC": (["Wx1", "Rx Wy1", "Ry Rx"], "", {(1, 1, 0)}),
    "ISA2": (["Wx1 Wy1", "Ry Wz1", "Rz Rx"], "", {(1, 1, 0)}),
    "IRIW": (["Wx1", "Wy1", "Rx Ry", "Ry Rx"], "", {(1, 0, 1, 0)}),
}
# the values that a word of these tests may have at its end
ENDS = {"2+2W": (1, 2), "S": (1, 2), "R": (1, 2)}


def litmus_source(threads):
    """The program of a litmus test; reads go to X10 on."""
    lines = ["    .global _start", "_start:", "    mov x1, #0x7f0000000000"]
    lines += [line for at in range(len(threads)) for line in (f"    cmp x0, #{at}", f"    b.eq t{at}")]
    for at, operations in enumerate(threads):
        lines.append(f"t{at}:")
        reads = 10
        for operation in operations.split():
            place = 8 * "xyz".index(operation[1])
            if operation[0] == "R":
                lines.append(f"    ldr x{reads}, [x1, #{place}]")
                reads += 1
            else:
                lines += [f"    mov x2, #{operation[2]}", f"    str x2, [x1, #{place}]"]
        lines += ["    mov x0, #0", "    mov x8, #93", "    svc #0"]
    return "\n".join(lines) + "\n"


def litmus_values(text, threads, words):
    """The reads, in order, and the words of an outcome's line."""
    found = {name: int(value, 16) for name, value in re.findall(r"(\d: x \d+) ([0-9a-f]{16})", text)}
    reads = [found.get(f"{at}: x {10 + n}", 0) for at, it in enumerate(threads) for n in range(it.count("R"))]
    return (*reads, *(int(re.search(rf"word {'xyz'.index(word)} = (\d+)", text)[1]) for word in words))


def try_litmus(tests):
    """Ten litmus tests: exactly what interleaving allows, by exactly so many orders."""
    for name, (threads, words, forbidden) in LITMUS.items():
        program = tests.assemble("litmus", litmus_source(threads))
        most = max(it.count("R") for it in threads)
        shows = [it for what in [*(f"x {10 + n}" for n in range(most)), *(f"word {'xyz'.index(word)}" for word in words)] for it in ("--show", what)]
        said = tests.run(TOOL, "outcomes", program, "--threads", len(threads), *shows, "--plans", "", "--jobs", 2)[1].splitlines()
        found = [litmus_values(line, threads, words) for line in said[1:]]
        reads = sum(it.count("R") for it in threads)
        possible = set(itertools.product(*[(0, 1)] * reads, *[ENDS.get(name, (0, 1))] * len(words))) - forbidden
        sizes = [len(it.split()) for it in threads]
        orders = math.factorial(sum(sizes))
        for size in sizes:
            orders //= math.factorial(size)
        told = sum(int(line.split()[0]) for line in said[1:])
        tests.check(name, [sorted(found), said[0].split()[:2], told], [sorted(possible), ["all", str(orders)], orders])


def try_races(tests):
    """The planted race is found, with a plan that makes it; of a right lock there is one outcome; a deadlock is told."""
    source = (TOP / "examples/race.s").read_text()
    race = tests.assemble("race", source)
    status, said = tests.run(TOOL, "outcomes", race, "--threads", 2, "--jobs", 2)
    found = re.findall(r"(?m)^ +\d+ (exit 0 0, word 1 = \d)    (race\.\d)\.plan$", said)
    tests.check("race", [status, sorted(text for text, _ in found)], [1, ["exit 0 0, word 1 = 1", "exit 0 0, word 1 = 2"]])
    for text, plan in found:
        said = tests.run(tests.smemu, "sim", race, tests.path(plan + ".plan"), "--threads", 2, "--cores", 2)[1]
        word = int(re.search(r"(?m)^w 1 (\w+)$", said)[1], 16)
        tests.check(plan, [f"exit 0 0, word 1 = {word}", tests.path(plan + ".report").read_text() in said, "skip" in said], [text, True, False])
        tests.check(f"replay of {plan}", tests.run(tests.smemu, "replay", race, tests.path(plan + ".report"), 1)[0], 0)
    said = tests.run(TOOL, "outcomes", race, "--threads", 2, "--plans", "", "--order")[1].splitlines()
    order = said[next(at for at, line in enumerate(said) if "word 1 = 1" in line) + 1:][:10]
    loads = [line.strip() for line in order if "ldr x5" in line]
    tests.check("an order that loses an addition", sorted(loads), [f"{at}: 0000000000400014: ldr x5, [x2, #8]: ld 1 -> 0" for at in (0, 1)])
    # orders that lose an addition change the thread twice
    for option, number, left in (("--switches", 1, "orders with more than 1 change of thread (--switches 1)"), ("--states", 20, "orders beyond the first 20 states (--states 20)")):
        status, said = tests.run(TOOL, "outcomes", race, "--threads", 2, option, number, "--plans", "")
        tests.check(option, [status, said.splitlines()[1].split(" ", 3)[3], said.splitlines()[2:]], [3, "exit 0 0, word 1 = 2", [f"not looked at: {left}"]])
    status, said = tests.run(TOOL, "outcomes", race, "--threads", 2, "--switches", 2, "--plans", "")
    tests.check("a fault and a bound", [status, said.splitlines()[-1]], [1, "not looked at: orders with more than 2 changes of thread (--switches 2)"])
    right = tests.assemble("right", source.replace("    ldar x4, [x2]\n", "    swpa x3, x4, [x2]\n").replace("    stlr x3, [x2]\n", ""))
    status, said = tests.run(TOOL, "outcomes", right, "--threads", 3, "--plans", "", "--jobs", 2)
    tests.check("a right lock", [status, said.splitlines()[1].split(" ", 3)[3]], [0, "exit 0 0 0, word 1 = 3"])
    dead = tests.assemble("dead", tests.path("right.s").read_text().replace("    stlr xzr, [x2]", "    nop"))
    status, said = tests.run(TOOL, "outcomes", dead, "--threads", 2, "--plans", "")
    tests.check("a lock that is not opened", [status, said.splitlines()[0].split()[:2], said.count("\n"), re.findall(r"thread \d waits at (\w+)", said)],
                [1, ["all", "0"], 2, ["000000000040000c"]])


def try_disturbances(tests):
    """Moves change nothing; of a signal's handler that takes ZA out of the frame each place with ZA on is named."""
    threads = tests.path("threads.elf")
    said = tests.run(TOOL, "outcomes", threads, "--threads", 2, "--svl", SVL, "--move", "--plans", "")
    tests.check("moves", [said[0], said[1].splitlines()[-1]], [0, "moved to another core at each of 28 places, 20 of them with ZA on: all is as before"])
    status, said = tests.run(TOOL, "outcomes", threads, "--threads", 2, "--svl", SVL, "--move", "--plans", "", "--most", 5)
    tests.check("some moves", [status, said.splitlines()[-1]], [3, "not looked at: 23 of 28 places of a move (--most 5)"])
    source = (TOP / "examples/signals.s").read_text()
    right = tests.assemble("signals", source)
    status, said = tests.run(TOOL, "outcomes", right, "--signal", 5, "--svl", SVL, "--most", 40)
    tests.check("signals.s", [status, said.splitlines()[1], said.splitlines()[-1]],
                [3, "  after the handler all is as before at 8 places, not at 0", "not looked at: counts after the first 40 at which it may come (--most 40)"])
    without = "    mov x10, sp\n    ldr x9, [x10, #288]\n    and x9, x9, #1\n    str x9, [x10, #288]\n    mov w9, #912\n    str w9, [x10, #8]\n"
    broken = tests.assemble("broken", source.replace("    mov x8, #139", without + "    mov x8, #139"))
    status, said = tests.run(TOOL, "outcomes", broken, "--signal", 5, "--svl", SVL, "--most", 40)
    # ZA is on from the instruction after the smstart on; the program posts at count 8, and waits from count 14 on
    with_za = [n for n, thread in enumerate(by_budget(tests, right, 15, "--svl", SVL)) if thread and thread.za_on]
    tests.check("a broken handler", [status, [int(it) for it in re.findall(r"(?m)^    count (\d+) .*svcr 3 becomes 1", said)]], [1, with_za])


def main():
    words = parser(__doc__)
    words.add_argument("program", nargs="?", metavar="PROGRAM")
    smemu = words.parse_args().program or emulator.find()
    os.environ["SMEMU"] = smemu = str(pathlib.Path(smemu).resolve())
    with tempfile.TemporaryDirectory() as folder:
        tests = Tests(smemu, folder)
        for test in (try_protocol, try_threads, try_refusals, try_calls, try_interrupt, try_gdb, try_versions, try_nested, try_za, try_litmus, try_races, try_disturbances):
            test(tests)
        gdb_tests.try_all(tests, Client)
    print(f"{tests.number} checks, {tests.faults} failed")
    return 1 if tests.faults else 0
