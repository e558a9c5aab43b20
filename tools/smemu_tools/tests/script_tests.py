"""Tries the scripts for users, and the wrapper, where no page runs them: at their edges, and on reports of both versions.

    tools/smemu-tools script-tests

The reports of samples/ were written by hand from docs/REPORT.md, and so was what is to be shown of them; those of examples/signals.s, whole and from
within its handler, were written by tools/smemu_tools/model/expected.py. No emulator is started: a program that says or does one thing stands in its place. The page is tried in Chromium too, where that is on the PATH. The last line says how many
checks there were; the status is 1 where one failed.
"""
import concurrent.futures
import html.parser
import json
import os
import pathlib
import re
import shutil
import signal
import subprocess
import sys
import tempfile

from smemu_tools import TOOL, TOP, parser, verbs
from smemu_tools.tests import doc_tests
from smemu_tools.user import refused as refused_script, reports, show as show_script, vectors as vectors_script

SAMPLES = pathlib.Path(__file__).resolve().parent / "samples"
TWO, SIM = SAMPLES / "two.report", SAMPLES / "two.sim"
# of version 1 and of version 2
WHOLE, HANDLED = ([SAMPLES / f"{name}.{version}.report" for version in (1, 2)] for name in ("signals", "handled"))
EVENT = "e ld 0 0000000000000000 0000000000000000 0000000000000000\n"
# lines that a report has where a value is not zero
OPTIONAL = {"skip", "x", "z", "p", "ffr", "za", "handler", "w", "pending"}


def ran(*words, **more):
    """The status, the output and the standard error of a command; a signal is a negative status."""
    ended = subprocess.run([str(word) for word in words], stdout=subprocess.PIPE, stderr=subprocess.PIPE, stdin=subprocess.DEVNULL, **more)
    return ended.returncode, ended.stdout.decode(), ended.stderr.decode()


def show(*words):
    return ran(sys.executable, TOOL, "show", *words)


def program(path, text):
    """Makes a program of these lines of a shell or of Python."""
    path.parent.mkdir(parents=True, exist_ok=True)
    path.write_text(text)
    path.chmod(0o755)
    return path


# ---- reports and what is shown of them


def text_of(held):
    """The report that an object of `smemu show --json` stands for, written by the lines of docs/REPORT.md."""
    zero = "0" * 16
    some = lambda name, values: [f"{name} {number} {value}" for number, value in values if value.strip("0")]
    event = lambda it: " ".join([it["kind"], str(it["place"]), it["a"], it["b"], it["answer"]])
    lines = [f"skip {it['line']} {it['why']}" for it in held["skips"]] + [f"smemu-report {held['version']}"]
    lines += ["options " + " ".join(f"{name}={value}" for name, value in held["options"].items()), f"image {held['image']}"]
    for it in held["threads"]:
        lines += [f"thread {it['thread']}", "stop " + " ".join(it["stop"]), f"count {it['count']}", f"turns {it['turns']}", f"pc {it['pc']}"]
        lines += some("x", enumerate(it["x"])) + [f"{name} {it[name]}" for name in ("sp", "nzcv", "tpidr", "tpidr2", "svcr")]
        lines += some("z", enumerate(it["z"])) + some("p", enumerate(it["p"])) + [f"ffr {it['ffr']}"] * bool(it["ffr"].strip("0"))
        lines += some("za", enumerate(it["za"] or [])) + [f"memory {it['memory']['pages']} {it['memory']['digest']}", f"held {it['held']}"]
        lines += [f"{name} {it[name]}" for name in ("inside", "mask", "depth") if name in it] + [f"polled {int(it['polled'])}"]
        lines += [f"handler {number} {address}" for number, address in it["handlers"].items()] + [f"output {len(it['output']) // 2}"]
        lines += [f"out {it['output'][at:at + 64]}" for at in range(0, len(it["output"]), 64)]
        lines += [f"journal {len(it['journal'])}", *(f"e {event(each)}" for each in it["journal"]), "end-thread"]
    lines += ["shared", *some("w", held["shared"].items()), *some("pending", held["pending"].items()), "end"]
    if held["history"] is not None:
        lines += [f"history {len(held['history'])}", *(f"h {it['thread']} {event(it)}" for it in held["history"])]
    assert zero not in held["shared"].values()
    return "".join(f"{line}\n" for line in lines)


# a line of two.report, a part of it, and what it may not be
OUT_OF_RANGE = (
    (2, "vl=128 svl", "vl=192 svl"), (2, "svl=128", "svl=64"), (2, "slice=7", "slice=0"), (2, "slice=7", "slice=1000001"), (2, "budget=100", "budget=0"),
    (2, "budget=100", "budget=4294967296"), (2, "threads=2", "threads=33"), (4, "thread 0", "thread 1"), (5, "exited 3", "exited 256"),
    (6, "count 21", "count 4294967296"), (7, "turns 26", "turns 18446744073709551616"), (6, "count 21", "count 021"), (10, "x 30", "x 31"),
    (17, "z 31", "z 32"), (19, "p 15", "p 16"), (22, "za 4", "za 16"), (16, "z 0 01", "z 0 0101"), (18, "p 0 11", "p 0 "), (20, "ffr ff", "ffr ffff"),
    (21, "svcr 3", "svcr 1"), (32, "output 34", "output 33"), (32, "output 34", "output 64"), (60, "w 511", "w 512"), (61, "pending 1", "pending 32"),
)


def reading():
    """Nothing of a report is lost or taken for something else; one that is not in the format is refused at its first such line."""
    for sample in (TWO, SIM, *WHOLE, *HANDLED):
        status, text, said = show(sample, "--json")
        yield f"{sample.name} --json", (status, text_of(json.loads(text)), said), (0, sample.read_text(), "")
        lines = sample.read_text().splitlines()
        for number, line in enumerate(lines):
            yield f"{sample.name} without line {number + 1}", is_refused(lines[:number] + lines[number + 1:]), line.split()[0] not in OPTIONAL
            wrong = lines[:number] + [line[:-1] + "g"] + lines[number + 1:]
            yield f"{sample.name} with a wrong line {number + 1}", is_refused(wrong), f"line {number + 1}"
            yield f"{sample.name} cut at line {number + 1}", is_refused(lines[:number]), is_cut(lines[:number])
    text = TWO.read_text()
    for line, old, new in OUT_OF_RANGE:
        yield new, is_refused(text.replace(old, new).splitlines()), f"line {line}"
    yield "the other version's lines", is_refused(TWO.read_text().replace("report 2", "report 1").splitlines()), "line 25"
    yield "a third version", is_refused(TWO.read_text().replace("report 2", "report 3").splitlines()), "line 1"
    first, second = (path.read_text() for path in HANDLED)
    yield "a line of version 2 in version 1", is_refused(first.replace("inside 1", "mask 0000000000000020\ndepth 1").splitlines()), "line 21"
    yield "a line of version 1 in version 2", is_refused(second.replace("mask 0000000000000020\ndepth 1", "inside 1").splitlines()), "line 21"
    yield "the depth alone", is_refused(second.replace("mask 0000000000000020\n", "").splitlines()), "line 21"
    yield "the mask alone", is_refused(second.replace("depth 1\n", "").splitlines()), "line 22"
    for text, wanted in ((first, {"version": 1, "inside": 1}), (second, {"version": 2, "mask": f"{0x20:016x}", "depth": 1})):
        held = json.loads(json.dumps(show_script.report_object(reports.parse(text))))
        found = {"version": held["version"], **{name: value for name, value in held["threads"][0].items() if name in ("inside", "mask", "depth")}}
        yield f"--json of version {wanted['version']}", found, wanted


def is_cut(lines):
    """The line that is missing after the first lines of a report: the next one, or none where all but the history is there."""
    return lines[-1:] != ["end"] and f"line {len(lines) + 1}"


def is_refused(lines):
    """The line at which a report is refused, or whether it is."""
    try:
        reports.parse("".join(f"{line}\n" for line in lines))
    except reports.NoReport as fault:
        return Refusal(str(fault))
    return False


class Refusal(str):
    """A text that equals True, and each text that it begins with."""

    def __eq__(self, wanted):
        return wanted is True or wanted is not False and self.startswith(f"{wanted}:")

    __hash__ = str.__hash__


def showing():
    """What `smemu show` says of one report."""
    yield "two.report", show(TWO), (0, (SAMPLES / "two.shown").read_text(), "")
    head, _, _ = (SAMPLES / "two.shown").read_text().partition("thread 0\n")
    tile = "thread 0\nza1.s rows 0 to 1 columns 1 to 2\n  65534 65533\n      0     0\n"
    yield "a part of a tile", show(TWO, "--tile", 1, "--rows", "0-1", "--columns", "1-2"), (0, head + tile, "")
    tile = "thread 0\nza1.s row 0 column 3\n  65532\n"
    yield "one element", show(TWO, "--tile", 1, "--rows", 0, "--columns", 3), (0, head + tile, "")
    tile = "thread 0\nza0.d\n  0000000000000000 0000000000000000\n  0000000000000000 0000000000000000\nthread 1\nza is off\n"
    yield "all threads", show(TWO, "--tile", 0, "--size", "d", "--hex", "--thread", "all"), (0, head + tile, "")
    lines = show(TWO, "--size", "b")[1].splitlines()
    yield "bytes", [lines[lines.index("z31.b") + 1], lines[lines.index("p15.b") + 1]], [
        "  -1 -1 -1 -1 -2 -1 -1 -1 0 0 0 -128 0 0 0 0", "  0 0 0 0 0 0 0 0 0 0 0 0 0 0 0 1"]
    lines = show(SIM, "--size", "d", "--unsigned")[1].splitlines()
    yield "doublewords outside streaming mode", lines[lines.index("z2.d") + 1], f"  255 0 0 {0xfe << 56}"


# a line of two.report, another in its place, and what is to be said of it
CHANGES = (
    ("image 00", "image 01", "image: 00112233445566778899aabbccddeeff0123456789abcdeffedcba9876543210, "
                             "01112233445566778899aabbccddeeff0123456789abcdeffedcba9876543210"),
    ("stop exited 3", "stop exited 0", "thread 0 stop: exited 3, exited 0"),
    ("x 30 ffffffffffffffff\n", "", "thread 0 x 30: ffffffffffffffff, 0000000000000000"),
    ("z 31 ffffffff", "z 31 00ffffff", "thread 0 z 31 element 0: -1, -256"),
    ("p 0 1111", "p 0 1011", "thread 0 p 0 element 0: 1, 0"),
    ("za 4 01000000", "za 4 09000000", "thread 0 za0.s row 1 column 0: 1, 9"),
    ("depth 2", "depth 1", "thread 0 depth: 2, 1"),
    ("handler 5 0000000000400050\n", "", "thread 0 handler 5: 0000000000400050, no line"),
    ("out 54", "out 74", r"thread 0 output: b'The first line,\nand the second:\xc3\xa9\n', b'the first line,\nand the second:\xc3\xa9\n'"),
    ("e ld 511", "e ld 510", "thread 0 event 1: ld 511 0x0 0x0 0xffffffffffffffff, ld 510 0x0 0x0 0xffffffffffffffff"),
    ("read\ncount 4", "write\ncount 4", "thread 1 stop: raised data 0000000000400010 0000000000000010 read, "
                                        "raised data 0000000000400010 0000000000000010 write"),
    ("w 511 ffffffffffffffff\n", "", "w 511: ffffffffffffffff, 0000000000000000"),
    ("pending 1 0000000000000020", "pending 1 0000000000000040", "pending 1: 0000000000000020, 0000000000000040"),
)


# the change in thread 1
THREAD_1 = -3


def differences(first, second):
    """What `smemu show` says of two texts."""
    view = show_script.View(show_script.parser().parse_args(["", ""]))
    both = reports.parse(first), reports.parse(second)
    return [f"{name}: {one}, {two}" for name, one, two in show_script.differences(*both, view, "all")]


def comparing(folder):
    """What `smemu show` says of two reports, one line for each change."""
    yield "a report and itself", show(TWO, TWO), (0, "", "")
    text, other = TWO.read_text(), folder / "other.report"
    for old, new, wanted in CHANGES:
        assert text.count(old) == 1, old
        yield f"for {old!r} {new!r}", differences(text, text.replace(old, new)), [wanted]
    both = [path.read_text() for path in HANDLED]
    digests = ", ".join(re.search("memory (.*)", it)[1] for it in both)
    yield "of both versions", differences(*both), [
        "smemu-report: 1, 2", "x 1: 00007dfffffffb80, 00007dfffffffb70", "sp: 00007dfffffffb80, 00007dfffffffb70", f"memory: {digests}", "inside: 1, no line",
        "mask: no line, 0000000000000020", "depth: no line, 1"]
    other.write_text(text.replace(*CHANGES[THREAD_1][:2]))
    yield "of the last thread alone", show(TWO, other), (1, CHANGES[THREAD_1][2] + "\n", "")
    yield "of the first thread", show(TWO, other, "--thread", 0), (0, "", "")
    other.write_text(text.replace(old, new))
    yield "of one thread", show(TWO, other, "--thread", 1), (1, CHANGES[-1][2] + "\n", "")
    other.write_text(SIM.read_text().replace("h 0 st 1", "h 1 st 1").replace("skip 2 nocore 9\n", ""))
    wanted = "skip 2: nocore 9, no line\nhistory 1: 0 st 1 0x7 0x0 0x0, 1 st 1 0x7 0x0 0x0\n"
    yield "of sim", show(SIM, other), (1, wanted, "")


def refusing(folder):
    """What `smemu show` says where it has nothing to show: no traceback, and the status 2."""
    for what, words, wanted in (
            ("an absent file", ["absent"], "absent: No such file or directory"),
            ("a folder", [folder], f"{folder}: Is a directory"),
            ("no report", [sys.executable], f"{sys.executable}: line 1: no line `smemu-report` of a report: .ELF"),
            ("an empty file", ["/dev/null"], "/dev/null: line 1: the text ends where `smemu-report` should stand"),
            ("a second file", [TWO, "absent"], "absent: No such file or directory"),
            ("a thread", [TWO, "--thread", 2], "there is no thread 2: these are 0 to 1"),
            ("a tile", [TWO, "--tile", 4], "there is no tile za4.s: these are 0 to 3"),
            ("rows", [TWO, "--tile", 1, "--rows", 4], "there are no rows 4 to 4: these are 0 to 3"),
            ("JSON of two", [TWO, TWO, "--json"], "--json shows one report"),
            ("a program without a page", [TWO, "--program", sys.executable], "--program is for --page"),
            ("another program", [TWO, "--page", "--program", sys.executable], f"{sys.executable} is not the program of {TWO}"),
            ("no program", [TWO, "--page", "--program", "absent"], "[Errno 2] No such file or directory: 'absent'")):
        status, text, said = show(*words)
        yield what, (status, text, said[:len(f"show: {wanted}")]), (2, "", f"show: {wanted}")
    long = folder / "long.report"
    long.write_text(TWO.read_text().replace("journal 0\n", "journal 20000\n" + 20000 * EVENT))
    command = f"{TOOL} show {long} --thread 1 | head -n 1; echo ${{PIPESTATUS[0]}}"
    yield "a closed pipe", ran("bash", "-c", command), (0, f"smemu-report 2\n{128 + signal.SIGPIPE}\n", "")


# ---- the page


class Cells(html.parser.HTMLParser):
    """The texts of the cells of an HTML file, a list for each row of each table by the `id` or `data-tile` around it, the values of
    registers by their names, and the elements that are marked as different."""

    def __init__(self, text):
        super().__init__()
        self.text = text
        self.rows, self.registers, self.marked, self.place, self.name, self.is_cell, self.is_marked = {}, {}, [], None, None, False, False
        self.feed(text)

    def handle_starttag(self, tag, attributes):
        named = dict(attributes)
        self.place = named.get("data-tile") or named.get("id") or self.place
        self.name = named.get("data-name") or self.name
        self.is_cell, self.is_marked = tag in ("td", "span"), tag in ("td", "span") and "differs" in named.get("class", "") and "title" in named
        if tag == "tr":
            self.rows.setdefault(self.place, []).append([])
        if tag == "td":
            self.rows[self.place][-1].append("")

    def handle_endtag(self, tag):
        self.is_cell = self.is_cell and tag != "td"

    def handle_data(self, data):
        if self.is_cell and self.rows.get(self.place) and self.rows[self.place][-1]:
            self.rows[self.place][-1][-1] += data
        if self.is_cell and self.name:
            self.registers.setdefault(self.name, data)
        if self.is_marked:
            self.marked.append(data)


def drawn(chromium, folder, text):
    """The page as Chromium has it after its scripts: as it opens, with an event chosen, and of thread 1 with halfwords in hexadecimal."""
    choose = """<script>
    const opened = document.getElementById("panel").cloneNode(true);
    choose({thread: 0, number: 1});
    const chosen = document.getElementById("panel").cloneNode(true);
    choose(null);
    state.size = "h";
    state.how = "hex";
    document.querySelectorAll("#threads tbody tr")[1].click();
    document.body.append(document.createElement("hr"), opened, document.createElement("hr"), chosen);
    </script></body>"""
    path = folder / "both.html"
    path.write_text(text.replace("</body>", choose))
    words = (chromium, "--headless", "--no-sandbox", "--disable-gpu", f"--user-data-dir={folder / 'data'}", "--virtual-time-budget=2000", "--dump-dom")
    clicked, opened, chosen = ran(*words, path.as_uri(), timeout=60)[1].split("<hr>")
    return Cells(opened), Cells(chosen), Cells(clicked)


def drawing(chromium, folder, text):
    """What the page's script makes of two reports: of the second, with what differs marked."""
    opened, chosen, clicked = drawn(chromium, folder, text)
    zeros = ["0"] * 4
    yield "tiles", [row for row in opened.rows.get("za0.s", []) if row], [zeros, ["9", "2", "3", "4"], zeros, zeros]
    yield "registers", [opened.registers.get(name) for name in ("x0", "x30", "pc", "sm", "mask", "handler 5", "word 511", "word 0")], [
        "3", "-1", "0000000000400054", "1", "0000000000000028", "0000000000400050", "-1", "2"]
    yield "events", opened.rows.get("events", [])[1:], [["0", "post 1 32 \u2192 0", ""], ["1", "ld 511 \u2192 -1", ""], ["2", "cas 0 1, 2 \u2192 1", ""]]
    yield "words after an event", [chosen.registers.get(name) for name in ("word 0", "word 511")], [None, "-1"]
    yield "marks", opened.marked, ["9"]
    yield "another thread", [clicked.registers.get(name) for name in ("x0", "x1", "pc", "za", "tpidr2")], [f"{1:016}", f"{2:016}", "0000000000400010", "0", "0" * 16]
    yield "what is empty, in one line", re.findall(r'id="empty" class="dim">([^<]*)<', opened.text + clicked.text), [
        "ZA is off; all zero: vectors of 128 bits, predicates"]


def data_of(text):
    """The first report in a page."""
    return json.loads(re.search(r'id="data">(.*?)</script>', text)[1])["reports"][0]


def paging(folder):
    """The text of the page against the report."""
    status, text, said = show(TWO, "--page")
    yield "--page", (status, said), (0, "")
    wanted = [["0", "exited with status 3", "21", "26", "3", "34"],
              ["1", "the byte at 0x10 is not there, or there is no permission to read it; PC is 0x400010", "4", "4", "0", "0"]]
    yield "the table of threads", [row for row in Cells(text).rows["threads"] if row], wanted
    first, second = data_of(text)["threads"]
    lines = dict(line.rpartition(" ")[::2] for line in TWO.read_text().partition("thread 1\n")[0].splitlines())
    yield "vectors in it", [first["z"], first["p"], first["ffr"], first["za"]], [
        {number: lines[f"{name} {number}"] for number in numbers} if numbers else lines[name]
        for name, numbers in (("z", ("0", "31")), ("p", ("0", "15")), ("ffr", ()), ("za", ("1", "4")))]
    yield "registers in it", [first["x"][30], first["sp"], first["mask"], second["x"][1], second["za"]], ["f" * 16, lines["sp"], lines["mask"], f"{2:016}", None]
    for path, wanted in zip(HANDLED, ([None, 1], [f"{0x20:016x}", 1])):
        held = data_of(show(path, "--page")[1])["threads"][0]
        yield f"the mask and the depth in it, of {path.name}", [held["mask"], held["depth"]], wanted
    long = folder / "long.report"
    long.write_text(TWO.read_text().replace("journal 0\n", "journal 20001\n" + 20001 * EVENT))
    second = data_of(show(long, "--page")[1])["threads"][1]
    yield "a long journal", [len(second["journal"]), second["journalLeft"]], [20000, 1]
    yield "nothing from elsewhere", re.findall(r"(?:src|href)=|https?://(?!www\.w3\.org/2000/svg)", text), []
    other = folder / "page.report"
    other.write_text(TWO.read_text().replace("za 4 01000000", "za 4 09000000").replace("out 54", "out 3c"))
    status, text, said = show(TWO, other, "--page")
    lines = re.findall(r"<p><code>(thread .*?)</code></p>", text)
    outputs = ", ".join(rf"b&#x27;{first}he first line,\nand the second:\xc3\xa9\n&#x27;" for first in ("T", "&lt;"))
    yield "--page of two", (status, said, lines), (1, "", ["thread 0 za0.s row 1 column 0: 1, 9", f"thread 0 output: {outputs}"])
    yield "an output that is no HTML", "<he first line" in text, False
    if shutil.which("chromium"):
        yield from drawing("chromium", folder, text)


# ---- smemu exec, the wrapper and the release


def executing(folder):
    """What `smemu exec` makes of a report that is in the place of a run."""
    report = folder / "run.report"
    smemu = program(folder / "fake" / "smemu", f'#!/bin/sh\ncat "{report}"\nexit "$(cat "{folder}/status")"\n')
    both = "thread 1 stop raised data 0000000000400010 0000000000000010 read"
    output, text = "The first line,\nand the second:é\n", TWO.read_text()
    stop = both.partition("stop ")[2]
    for what, content, status, wanted in (
            ("one thread does not exit", text, 0, (125, output, f"{both}\n")),
            ("no thread exits", text.replace("exited 3", "budget"), 0, (125, output, f"thread 0 stop budget\n{both}\n")),
            ("both exit, the first with 3", text.replace(stop, "exited 7"), 0, (3, output, "")),
            ("both exit, the second with 7", text.replace(stop, "exited 7").replace("exited 3", "exited 0"), 0, (7, output, "")),
            ("both exit with 0", text.replace(stop, "exited 0").replace("exited 3", "exited 0"), 0, (0, output, "")),
            ("a refusal", "bad file: notelf\n", 6, (125, "", "bad file: notelf\n")),
            ("no memory", "", 8, (125, "", "smemu ended with status 8\n"))):
        report.write_text(content)
        (folder / "status").write_text(str(status))
        yield what, ran(sys.executable, TOOL, "exec", "any.elf", "--threads", 2, env={**os.environ, "SMEMU": str(smemu)}), wanted
    yield from executing_words(folder)
    absent = str(folder / "absent")
    yield "no emulator", ran(sys.executable, TOOL, "exec", "any.elf", env={**os.environ, "SMEMU": absent}), (
        125, "", f"{absent}: No such file or directory\n")


def executing_words(folder):
    """The options go to `run` from before the program and from behind it, and nothing else does."""
    smemu = program(folder / "words" / "smemu", f'#!/bin/sh\necho "$@" > "{folder}/words/given"\nexit 8\n')

    def given(*words):
        (folder / "words" / "given").write_text("nothing\n")
        status, text, said = ran(sys.executable, TOOL, "exec", *words, env={**os.environ, "SMEMU": str(smemu)})
        return status, text, said.splitlines()[-1], (folder / "words" / "given").read_text().strip()

    for words in (("any.elf",), ("--svl", 512, "any.elf"), ("any.elf", "--svl", 512), ("--vl", 256, "--svl", 512, "any.elf", "--threads", 2), ("--budget", "any.elf", "any.elf")):
        at = 2 * (len(words) // 2) if words[0] == "--budget" else words.index("any.elf")
        wanted = " ".join(map(str, ("run", words[at], *words[:at], *words[at + 1:])))
        yield f"the words {words}", given(*words), (125, "", "smemu ended with status 8", wanted)
    for words, said in (
            (("any.elf", "one"), "one: a guest has no arguments, so after the program only options may stand: --vl"),
            (("--svl", 512, "any.elf", "--verbose"), "--verbose: a guest has no arguments"),
            (("--verbose", "any.elf"), "--verbose is no option: --vl --svl --slice --budget --threads --cores; of a file of that name write ./--verbose"),
            (("any.elf", "--svl"), "--svl has no value"), (("--svl", 512), "there is no PROGRAM"), ((), "there is no PROGRAM")):
        status, text, last, run_with = given(*words)
        yield f"the words {words}", (status, text, last[:len(f"smemu exec: {said}")], run_with), (125, "", f"smemu exec: {said}", "nothing")
    for word in ("-h", "--help"):
        status, text, said = ran(sys.executable, TOOL, "exec", word)
        yield f"exec {word}", (status, text.splitlines()[0], said), (0, "usage: smemu exec [OPTIONS] PROGRAM [OPTIONS]", "")


def make_tree(folder, text):
    """A tree with the wrapper, the scripts of the release, and one crate, whose program is this text."""
    folder.mkdir(exist_ok=True)
    shutil.copy(TOP / "smemu", folder)
    shutil.copytree(TOP / "tools", folder / "tools", ignore=shutil.ignore_patterns("__pycache__", "samples", "at_fault.py"))
    (folder / "crates.txt").write_text("smemu_cli:\n")
    (folder / "HANDLES").write_text("none\n")
    program(folder / "crates/smemu_cli/src/main.rt", "")
    return program(folder / "crates/smemu_cli/out/smemu_cli", text)


def wrapping(folder):
    """The wrapper ends as the program does, and says on standard error what the status says."""
    make_tree(folder, "#!/usr/bin/env python3\nimport os, signal, sys\nsignal.signal(signal.SIGINT, signal.SIG_DFL)\n"
                      "os.kill(os.getpid(), getattr(signal, sys.argv[1]))\n")
    for name in ("SIGHUP", "SIGINT", "SIGQUIT", "SIGABRT", "SIGKILL", "SIGUSR1", "SIGSEGV", "SIGTERM"):
        yield name, ran(folder / "smemu", name), (-getattr(signal, name), "", "")
    program(folder / "crates/smemu_cli/out/smemu_cli", '#!/bin/sh\necho "the line"\nexit "$1"\n')
    for status, wanted in ((0, ""), (2, "; the line that says why stands in the output\nsmemu: {} --help has the commands and their options"),
                           (5, ""), (6, "; the line that says why stands in the output"), (8, "")):
        said = f"smemu: ended with status {status}{wanted.format(folder / 'smemu')}\n" * bool(status)
        yield f"status {status}", ran(folder / "smemu", status), (status, "the line\n", said)
        yield f"status {status}, quietly", ran(folder / "smemu", status, env={**os.environ, "SMEMU_QUIET": "1"}), (status, "the line\n", "")
    yield "--which", ran(folder / "smemu", "--which"), (0, f"{folder}/crates/smemu_cli/out/smemu_cli\n", "")
    yield from marking(folder)
    yield from judging(folder)
    yield from helping(folder)


def judging(folder):
    """What abi-check says is written as it is; where no call was marked a sentence stands beside it, on standard error."""
    smemu, sentence = folder / "smemu", "smemu: no call of this run is marked, so none was judged\n"
    for line, status, wanted in (("abi yes calls 0 open 0", 0, sentence), ("abi yes calls 0 open 1", 0, ""), ("abi yes calls 10 open 0", 0, ""), ("abi yes calls 0 open 0 ", 0, ""),
                                 ("unlawful: count 1 pc 2 toodeep", 13, "smemu: ended with status 13; the line that says why stands in the output\n"),
                                 ("", 8, "smemu: ended with status 8\n")):
        program(folder / "crates/smemu_cli/out/smemu_cli", f"#!/bin/sh\n{'echo' if line else ':'} '{line}'\nexit {status}\n")
        text = line and f"{line}\n"
        yield f"abi-check, {line!r}", ran(smemu, "abi-check", "p", "r", 0), (status, text, wanted)
        yield f"abi-check, {line!r}, quietly", ran(smemu, "abi-check", "p", "r", 0, env={**os.environ, "SMEMU_QUIET": "1"}), (status, text, "")
        if not status:
            yield f"another command, {line!r}", ran(smemu, "replay", "p", "r", 0), (status, text, "")
    command = f"echo given | {smemu} abi-check /dev/stdin; {smemu} abi-check p > /dev/full; echo $?; {smemu} abi-check p | true; echo ${{PIPESTATUS[0]}}"
    program(folder / "crates/smemu_cli/out/smemu_cli", '#!/bin/sh\n[ "$2" = p ] && head -c 100000 /dev/zero | tr "\\0" x || cat\n')
    yield "abi-check, what it reads and where it writes", ran("bash", "-c", command)[:2], (0, "given\n5\n5\n")
    program(folder / "crates/smemu_cli/out/smemu_cli", "#!/bin/sh\nkill -s TERM $$\n")
    yield "abi-check, a signal", ran(smemu, "abi-check"), (-signal.SIGTERM, "", "")


# a help in the form of the program's, and of each command what is to be shown of it
HELP = """smemu runs programs.

commands:
  run PROGRAM   runs PROGRAM
  sim PROGRAM PLAN
                runs PROGRAM by PLAN,
                on cores
  dis PROGRAM   lists PROGRAM
  bench N       runs workload N
  --help        writes this text

options:
  --vl BITS     the length
  --cores N     cores: 1 to 64; else 1

statuses:
  0   the text was written
"""
END = "\nsmemu --help has all commands, and what each exit status says.\n"
HELPS = {
    "run": "usage: smemu run PROGRAM [OPTIONS]\n  runs PROGRAM\n\n  --vl BITS     the length\n  --cores N     cores: 1 to 64; else 1\n" + END,
    "sim": "usage: smemu sim PROGRAM PLAN [OPTIONS]\n  runs PROGRAM by PLAN,\n  on cores\n\n  --vl BITS     the length\n  --cores N     cores: 1 to 64; else 1\n" + END,
    "dis": "usage: smemu dis PROGRAM\n  lists PROGRAM\n" + END,
    "bench": "usage: smemu bench N [OPTIONS]\n  runs workload N\n\n  --cores N     cores: 1 to 64; else 1\n" + END,
}


def helping(folder):
    """The program's help has the scripts below it; that of one command is a part of it; a word of a script starts the script, with the program."""
    smemu = folder / "smemu"
    built = program(folder / "crates/smemu_cli/out/smemu_cli", f"#!/bin/sh\n[ $# -eq 1 ] && [ $1 = --help ] && cat << 'END' || echo the program: $@\n{HELP}END\n")
    program(folder / "tools/smemu-tools", "import os, sys\nprint(sys.argv[1:], os.environ.get('SMEMU'))\n")
    for word in ("--help", "-h", "help"):
        status, text, said = ran(smemu, word)
        own, _, scripts = text.partition("\nscripts, ")
        yield f"the words {word}", (status, own, re.findall(r"(?m)^  ([a-z][a-z-]*) ", scripts), "no theorem covers them" in scripts, said), (
            0, HELP, list(verbs.SCRIPTS), True, "")
    for command, wanted in HELPS.items():
        for word in ("--help", "-h"):
            yield f"{command} {word}", ran(smemu, command, word), (0, wanted, "")
    for words in (("run", "--help", "--vl"), ("what", "--help"), ("run",), ("--version",), ("--help", "--help")):
        yield f"the words {words}", ran(smemu, *words), (0, f"the program: {' '.join(words)}\n", "")
    without = {name: value for name, value in os.environ.items() if name != "SMEMU"}
    for verb in verbs.SCRIPTS:
        yield f"the script {verb}", ran(smemu, verb, "a b", "--c", env=without), (0, f"{[verb, 'a b', '--c']} {None if verb == 'show' else built}\n", "")
    yield "a script and another program", ran(smemu, "when", env={**without, "SMEMU": "other"}), (0, "['when'] other\n", "")
    for tool in ("bash", "dirname", "readlink"):
        (folder / "few").mkdir(exist_ok=True)
        os.symlink(shutil.which(tool), folder / "few" / tool)
    yield "a script without python3", ran(shutil.which("bash"), smemu, "exec", "any.elf", env={"PATH": folder / "few"}), (
        125, "", "smemu: exec is a script, and python3 is not there\n")
    yield "no script", ran(sys.executable, TOOL, "run")[0], 1
    for verb, script in verbs.SCRIPTS.items():
        for word in ("--help", "-h"):
            status, text, said = ran(sys.executable, TOOL, verb, word)
            yield f"smemu-tools {verb} {word}", (status, re.sub(r"\s+", " ", text)[:len(f"usage: smemu {verb} ")], said), (0, f"usage: smemu {verb} ", "")


def marking(folder):
    """On a terminal the line of a source stands below its refusal, with a mark below the column."""
    if not doc_tests.has_terminal():
        return
    (folder / "bad.s").write_text("_start:\n\tadd x0, é, #4096 // é\x1b[1m\n")
    for refusal, mark in (("line 2: line badnumber 14", "\t" + " " * 12 + "^"), ("line 2: line badnumber 2", "\t^"), ("line 2: doubled", None)):
        program(folder / "crates/smemu_cli/out/smemu_cli", f'#!/bin/sh\necho "bad source: {refusal}"\nexit 7\n')
        wanted = [f"bad source: {refusal}", "\tadd x0, é, #4096 // é?[1m", *[mark] * bool(mark)]
        yield refusal, doc_tests.shown("./smemu asm bad.s", folder), wanted
    program(folder / "crates/smemu_cli/out/smemu_cli", '#!/bin/sh\necho "bad source: line 0: nostart"\nexit 7\n')
    wanted = ["smemu: ended with status 7; the line that says why stands in the output"]
    yield "no line", doc_tests.shown("./smemu asm bad.s > /dev/null", folder), wanted


def releasing(folder):
    """The release is compared with what was built, or with what was unpacked where nothing was; so is what is timed."""
    built = make_tree(folder, "#!/bin/sh\necho released\n")
    check = (sys.executable, folder / "tools/smemu-tools", "release", "--check")
    taken = (sys.executable, "-c", "from smemu_tools.gate import times; print(times.emulator())")
    of_folder = {**os.environ, "PYTHONPATH": str(folder / "tools")}
    yield "made", ran(sys.executable, folder / "tools/smemu-tools", "release")[0], 0
    name = "release: crates/smemu_cli/out/smemu_cli is"
    yield "built", ran(*check), (0, f"{name} the released program byte for byte\n", "")
    yield "timed where built", ran(*taken, env=of_folder), (0, f"{built}\n", "")
    program(built, "#!/bin/sh\necho another\n")
    yield "another", ran(*check), (1, f"{name} not the released program, which is of the same sources\n", "")
    built.unlink()
    yield "nothing", ran(*check), (1, "release: there is no crates/smemu_cli/out/smemu_cli\n", "")
    unpacked = folder / "release/out/smemu_cli"
    yield "unpacked by a start", ran(folder / "smemu")[:2], (0, "released\n")
    yield "unpacked", ran(*check), (0, "release: release/out/smemu_cli is the released program byte for byte\n", "")
    yield "timed where nothing is built", ran(*taken, env=of_folder), (0, f"{unpacked}\n", "")
    program(unpacked, "#!/bin/sh\necho another\n")
    yield "another unpacked", ran(*check)[:2], (1, "release: release/out/smemu_cli is not the released program, which is of the same sources\n")
    yield "no file", ran(sys.executable, folder / "tools/smemu-tools", "times", folder / "absent"), (1, "", f"there is no {folder / 'absent'}\n")


# ---- lines of vectors and their answers

# of each object its line, written from docs/VECTORS.md
VECTOR_LINES = (
    ({"word": "0xab010020", "x": {"1": "0x8000000000000000"}}, "ab010020 x1=8000000000000000"),
    ({"word": 0x1e604000}, "1e604000"),
    ({"word": 1, "x": {"10": 2, "9": 1, "0": 0}, "nzcv": 5, "svcr": 3, "z": {"3": "0100"}, "p": {"2": "01"}, "ffr": "ff", "za": {"11": "0a", "2": "00"}, "m": "0100"},
     "00000001 x9=0000000000000001 x10=0000000000000002 nzcv=0101 svcr=3 z3=0100 p2=01 ffr=ff za11=0a m=0100"),
    ({"end": "next", "pc": 0x20004, "sp": 16, "tpidr": 1, "tpidr2": 2, "m": "0100ff0000"},
     "next pc=0000000000020004 sp=0000000000000010 tpidr=0000000000000001 tpidr2=0000000000000002 m=0100ff"),
    ({"end": "raise", "values": ["undefined", "1e604000"]}, "raise undefined 1e604000"),
    ({"end": "call", "values": ["0"]}, "call 0"),
    ({"end": "shared"}, "shared"),
)
BAD_OBJECTS = ('{"word": 4294967296}', '{"x": {}}', '{"word": 1, "x": {"31": 1}}', '{"word": 1, "nzcv": 16}', '{"word": 1, "svcr": 4}', "[]", "q")
BAD_VECTOR_LINES = ("zz", "1e60400", "00000001  sp=0000000000000001", "00000001 x1=80", "00000001 x31=0000000000000001", "00000001 x01=0000000000000001",
                    "00000001 nzcv=0121", "00000001 svcr=4", "00000001 m=123", "00000001 m=", "00000001 z1=0A", "00000001 sp=0000000000000001 ", "next pc=1")


def rereading():
    """Each line of a file of vectors, and each answer, is the same once it was read and written again, but for fields that are zero."""
    for path in sorted((TOP / "crates" / "smemu_rows" / "data").glob("*.vectors*")):
        lines = path.read_text().splitlines()
        wanted = [" ".join(word for word in line.split(" ") if not re.fullmatch("(?!pc=)[a-z0-9]+=0+", word)) for line in lines]
        yield f"{path.name}, read and written", [vectors_script.line(vectors_script.read(line)) for line in lines], wanted


def vectoring(folder):
    script = sys.executable, TOOL, "vectors"

    def given(mode, text):
        file = folder / "given"
        file.write_text(text)
        with open(file) as it:
            ended = subprocess.run([*map(str, script), mode], stdin=it, stdout=subprocess.PIPE, stderr=subprocess.PIPE, text=True)
        return ended.returncode, ended.stdout

    lines = "".join(f"{line}\n" for _, line in VECTOR_LINES)
    yield "lines of objects", given("line", "".join(f"{json.dumps(it)}\n" for it, _ in VECTOR_LINES)), (0, lines)
    yield "lines that were read", given("line", given("state", lines)[1]), (0, lines)
    for text in BAD_OBJECTS:
        yield f"the object {text}", given("line", text), (2, "")
    for text in BAD_VECTOR_LINES:
        yield f"the line {text!r}", given("state", text), (2, "")
    one, other = folder / "one", folder / "other"
    one.write_text("next pc=0000000000020004 x1=8000000000000000 nzcv=0111\nshared\ncall 0\n")
    other.write_text("next pc=0000000000020004 x1=8000000000000000 nzcv=0101 x2=0000000000000001\nshared\ncall 5\nshared\n")
    yield "the same answers", ran(*script, "compare", one, one)[:2], (0, "")
    yield "other answers", ran(*script, "compare", one, other)[:2], (
        1, "line 1: nzcv 7 5\nline 1: x2 0 1\nline 3: values 0 5\nline 4: end none shared\n")
    yield "no mode", ran(*script, "lines")[:2], (2, "")
    yield from rereading()


# what objdump says of a word, and with what the row of FROM_C.md begins that says what to write
WRITTEN = (("fmov x0, d0", "`fmov x0, d0`"), ("stp d15, d14, [sp, #-64]!", "`stp d15, d14, ..`"), ("ldp d9, d8, [sp]", "`stp d15, d14, ..`"), ("stp d0, d1, [x0]", "all of"),
           ("mad z0.s, p0/m, z1.s, z2.s", "`mad`"), ("adr z0.s, [z1.s, z0.s, lsl #1]", "`adr z0.s"), ("lastb s0, p0, z0.s", "`lastb s0"),
           ("and z0.s, z0.s, #0xff", "`and z0.s"), ("uqadd z0.h, z0.h, #3", "`and z0.s"), ("dupm z0.s, #0xff00", "`and z0.s"), ("ld1rw { z0.s }, p0/z, [x0]", "`ld1rw`"),
           ("udot z0.s, z1.b, z2.b", "`sdot`"), ("revw z0.d, p0/m, z1.d", "`revb`"), ("ld2b { z0.b, z1.b }, p0/z, [x0]", "`ld2b` to `ld4d`"), ("st4d {z0.d, z1.d, z2.d, z3.d}, p0, [x0]", "`ld2b`"),
           ("ld1w { z0.s }, p0/z, [x0, z1.s, uxtw #2]", "gathers"), ("st1d { z0.d }, p0, [z1.d, #8]", "gathers"), ("ldff1b { z0.b }, p0/z, [x0, xzr]", "`ldff1b`"),
           ("brkb p0.b, p1/z, p2.b", "`ldff1b`"), ("prfm pldl1keep, [x0]", "`prfm`"), ("prfb pldl1keep, p0, [x0]", "`prfm`"), ("ldaxr w0, [x1]", "`ldaxr`"), ("stlxrb w0, w1, [x2]", "`ldaxr`"),
           ("ldaprb w0, [x1]", "`ldaxr`"), ("stlur x0, [x1, #8]", "`ldaxr`"), ("ldaxp x0, x1, [x2]", "`ldaxr`"), ("crc32b w0, w1, w2", "`crc32b`"), ("cnt x0, x1", "`crc32b`"), ("umin x0, x1, x2", "`crc32b`"),
           ("fadd z0.s, z0.s, z1.s", "all of"), ("add v0.4s, v1.4s, v2.4s", "all of"), ("ld1 { v0.16b }, [x0]", "all of"), ("str q0, [x0]", "all of"), ("stur d0, [x0, #-8]", "all of"),
           ("scvtf d0, x1", "all of"), ("dup v0.16b, w1", "all of"), ("ldg x0, [x1]", None), ("dc cvac, x0", None), ("histcnt z0.s, p0/z, z1.s, z2.s", None),
           ("fmov w12, s29", "`fmov w14, s27`"), ("fmov w12, s0", "`fmov x0, d0`"), ("match p0.b, p0/z, z0.b, z1.b", "`match`"), ("incp x2, p0.b", "`incp"), ("incp z0.h, p0.h", None),
           ("ld1rqb { z0.b }, p0/z, [x0]", "`ld1rqb`"), ("rdffr p0.b, p1/z", "`rdffr"), ("shadd z0.b, p0/m, z0.b, z1.b", "`uhadd`"), ("srhadd z0.b, p0/m, z0.b, z1.b", "`urhadd`"),
           ("movprfx z0.s, p0/z, z1.s", "`movprfx"), ("sqxtunb z0.b, z1.h", "`sqxtunb`"), ("uqxtnt z0.b, z1.h", "`sqxtunb`"), ("sqrshrnb z0.b, z1.h, #4", "`sqrshrnb`"), ("sqrshrunt z0.b, z1.h, #4", "`sqrshrnb`"),
           ("shrnb z0.b, z1.h, #4", "`sqrshrnb`"), ("sadalp z0.h, p0/m, z1.b", "`uadalp`"), ("ssubwt z0.h, z0.h, z1.b", "`uaddwb`"), ("ushllt z0.h, z1.b, #0", "`ushllb`"), ("ssublb z0.h, z1.b, z2.b", "`usublb`"),
           ("sqshl z0.h, p0/m, z0.h, z1.h", "`srshl`"), ("urshlr z0.h, p0/m, z0.h, z1.h", "`srshl`"), ("asrr z0.h, p0/m, z0.h, z1.h", "`asrr`"))


def writing():
    """Each text has the row of FROM_C.md that is meant for it, and each row that is named is there."""
    cells = list(refused_script.advice())
    for text, wanted in WRITTEN:
        row = refused_script.row_of(text)
        yield f"the row of {text}", row and row.startswith(wanted) if wanted else row, True if wanted else None
    for _, row in refused_script.ROWS:
        yield f"the row {row}", len([cell for cell in cells if cell.startswith(row)]), 1
    yield "all rows", [cell for cell in cells if not any(cell.startswith(row) for _, row in refused_script.ROWS)], []


def collected(part, folder):
    """The checks of a part, with its name; those that need a folder have one of their own."""
    if part in (reading, showing, writing):
        return [(f"{part.__name__}: {what}", got, wanted) for what, got, wanted in part()]
    own = folder / part.__name__
    own.mkdir()
    return [(f"{part.__name__}: {what}", got, wanted) for what, got, wanted in part(own)]


def main():
    parser(__doc__).parse_args()
    parts = (reading, showing, comparing, refusing, paging, executing, wrapping, releasing, vectoring, writing)
    with tempfile.TemporaryDirectory() as name, concurrent.futures.ThreadPoolExecutor() as pool:
        checks = [check for found in pool.map(lambda part: collected(part, pathlib.Path(name)), parts) for check in found]
    failed = [(what, got, wanted) for what, got, wanted in checks if not got == wanted]
    for what, got, wanted in failed:
        print(f"{what}\n  wanted: {wanted!r}\n  got:    {got!r}")
    print(f"script_tests: {len(checks)} checks, {len(failed)} failed")
    return 1 if failed else 0
