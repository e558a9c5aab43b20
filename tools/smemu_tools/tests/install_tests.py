"""Tries what `./smemu --install` installs: everywhere, in an empty root, by a user without rights;
and the completions.

    tools/smemu-tools install-tests [PROGRAM]

PROGRAM is the emulator; where it is not given it is what ./smemu runs. The words that are completed
are compared with those that the program takes, and the completions of each shell are asked where it
is on the PATH. What is not there is said. The last line says how many checks there were; the status
is 1 where one failed.
"""
from __future__ import annotations

import argparse
import os
import pathlib
import re
import shutil
import subprocess
import tempfile
from typing import Any

from smemu_tools import TOOL, TOP
from smemu_tools import verbs
from smemu_tools.tests import beside_tests
from smemu_tools.user import completions, emulator, install, manual

# what a command that is no script needs in a root, and what the scripts need besides
SHELL = ("bash", "env", "dirname", "readlink", "sleep", "grep", "kill", "cat")
USER = 65534


class Tests(beside_tests.Tests):
    """A folder with a copy of what is installed, and the words that go there."""

    def __init__(self, smemu: str, folder: str) -> None:
        super().__init__(smemu, folder)
        self.folder.chmod(0o755)
        self.tree = self.path("tree")
        for name in ("tools", "docs"):
            shutil.copytree(TOP / name, self.tree / name,
                            ignore=shutil.ignore_patterns("__pycache__", "samples"))
        shutil.copy(TOP / "smemu", self.tree)
        (self.tree / "crates/smemu_cli/out").mkdir(parents=True)
        (self.tree / "crates/smemu_cli/src").mkdir()
        shutil.copy(smemu, self.tree / "crates/smemu_cli/out/smemu_cli")
        self.environment = {name: value for name, value in os.environ.items() if name != "SMEMU"}
        self.program = self.assemble("hello", (TOP / "examples/hello.s").read_text())
        self.report(self.program, "hello")

    def install(self, prefix: pathlib.Path, *words: str) -> tuple[int, str]:
        return self.run(*words, self.tree / "smemu", "--install", prefix)


def files_below(folder: pathlib.Path) -> list[str]:
    """The names of all that is below a folder."""
    return sorted(str(it.relative_to(folder)) for it in folder.rglob("*"))


# installing


def try_all_words(tests: Tests, smemu: pathlib.Path, *before: str) -> None:
    """An installed command runs programs and scripts, with the program that was installed."""
    run = lambda *words: tests.run(*before, smemu, *words)
    tests.check("--version", run("--version"), tests.run(tests.smemu, "--version"))
    tests.check("run", run("run", "hello.elf"), (0, tests.path("hello.report").read_text()))
    tests.check("exec", run("exec", "hello.elf"), (0, "Hello, SME!!\n"))
    tests.check("refused", run("refused", "hello.elf"), (0, "not listed: 0\n"))
    tests.check("when", run("when", "hello.elf", "hello.report", "x", 0, "--last")[0], 0)
    tests.check("za-calls", run("za-calls", "hello.elf", "hello.report")[0], 0)
    tests.check("outcomes", run("outcomes", "hello.elf", "--plans", "")[0], 0)
    for words in (("show", "hello.report"), ("show", "hello.report", "--page")):
        tests.check(f"{words}", run(*words), tests.run(tests.tree / "smemu", *words))
    for verb in verbs.SCRIPTS:
        tests.check(f"{verb} --help", run(verb, "--help"),
                    tests.run(tests.tree / "smemu", verb, "--help"))


def try_install(tests: Tests) -> None:
    """An installation stands where it is put, works without the repository and elsewhere, and is
    taken away again."""
    prefix, moved = tests.path("prefix"), tests.path("moved")
    status, said = tests.install(prefix)
    tests.check("--install", [status, said.splitlines()[1:]],
                [0, [f"PATH does not name {prefix}/bin, where the command is"]])
    names = files_below(prefix)
    stated = [it.rstrip("/") for it in (prefix / install.LIST).read_text().splitlines()]
    tests.check("the list",
                [sorted(stated), len(set(stated)), int(re.search(r": (\d+) files", said)[1])],
                [names, len(stated),
                 sum(not it.endswith("/")
                     for it in (prefix / install.LIST).read_text().splitlines())])
    user = "tools/smemu_tools/user"
    tests.check("the scripts for users", files_below(prefix / "lib/smemu" / user),
                files_below(tests.tree / user))
    tests.check("the program", (prefix / "lib/smemu/smemu_cli").read_bytes(),
                pathlib.Path(tests.smemu).read_bytes())
    tests.check("a place in a file",
                [it for it in names
                 if (prefix / it).is_file()
                 and os.fsencode(tests.folder) in (prefix / it).read_bytes()], [])
    tests.tree.rename(tests.path("away"))
    prefix.rename(moved)
    smemu = moved / "bin/smemu"
    tests.check("--which", tests.run(smemu, "--which"), (0, f"{moved}/lib/smemu/smemu_cli\n"))
    tests.check("elsewhere", tests.run(smemu, "exec", "hello.elf"), (0, "Hello, SME!!\n"))
    tests.path("away").rename(tests.tree)
    try_all_words(tests, smemu)
    tests.check("what scripts leave", files_below(moved), names)
    for word in ("--build", "--test", "--install"):
        status, said = tests.run(smemu, word, *[moved] * (word == "--install"))
        tests.check(
            word, [
                status, said.splitlines()[-1].endswith(
                    "is a word of ./smemu in the repository, and this is an installation")],
            [2, True])
    tests.check("--completions", tests.run(smemu, "--completions", "bash"),
                (0, (moved / install.COMPLETIONS["bash"]).read_text()))
    tests.check("--uninstall", [tests.run(smemu, "--uninstall")[0], files_below(moved)], [0, []])
    tests.check(
        "--uninstall of nothing", tests.run(tests.tree / "smemu", "--uninstall", moved),
        (1, f"smemu: uninstall: there is no installation in {moved}: it has no lib/smemu/files\n"))


def try_again(tests: Tests) -> None:
    """An installation replaces another, and neither it nor its end takes what is another's."""
    prefix = tests.path("again")
    own = [prefix / "bin/other", prefix / "share/man/man1/other.1"]
    for path in own:
        path.parent.mkdir(parents=True)
        path.write_text("other\n")
    before = files_below(prefix)
    tests.check("--install", tests.install(prefix)[0], 0)
    names = files_below(prefix)
    listed = prefix / install.LIST
    (prefix / "lib/smemu/tools/old.py").write_text("old\n")
    listed.write_text(listed.read_text() + "lib/smemu/tools/old.py\n")
    tests.check("a file that is no longer one", [tests.install(prefix)[0], files_below(prefix)],
                [0, names])
    tests.check("--uninstall",
                [tests.run(tests.tree / "smemu", "--uninstall", prefix)[0], files_below(prefix)],
                [0, before])
    (prefix / "bin/smemu").write_text("another\n")
    before = files_below(prefix)
    tests.check(
        "another's file", [tests.install(prefix), files_below(prefix)],
        [(1,
          f"smemu: install: {prefix}/bin/smemu is there, and no installation has put it there\n"),
         before])
    for words in (("--install",), ("--uninstall",)):
        status, said = tests.run(tests.tree / "smemu", *words)
        tests.check(f"{words}", [status, said.splitlines()[-1]],
                    [2, f"smemu: error: {words[0]} needs a PREFIX, as ~/.local"])


# other places


def make_root(tests: Tests, root: pathlib.Path, has_python: bool) -> None:
    """A root that has a shell, and Python where it is to, and nothing else."""
    programs = [shutil.which(it) for it in SHELL] + ["/usr/bin/python3"] * has_python
    libraries = subprocess.run(["ldd", *programs, tests.smemu], stdout=subprocess.PIPE,
                               text=True).stdout
    for path in {*programs, *re.findall(r"(?:=> |\t)(/\S+)", libraries)}:
        (root / path[1:]).parent.mkdir(parents=True, exist_ok=True)
        shutil.copy(path, root / path[1:])
    if has_python:
        library = subprocess.run(["/usr/bin/python3", "-c", "import os; print(os.__file__)"],
                                 stdout=subprocess.PIPE, text=True).stdout
        folder = pathlib.Path(library).parent
        unneeded = shutil.ignore_patterns("__pycache__", "test", "idlelib", "lib2to3",
                                          "dist-packages", "config-*")
        shutil.copytree(folder, root / str(folder)[1:], ignore=unneeded, symlinks=True)
    for name in ("home", "tmp", "dev", "proc"):
        (root / name).mkdir(exist_ok=True)
    (root / "dev/null").touch()
    (root / "dev/null").chmod(0o666)
    for name in ("hello.elf", "hello.report"):
        shutil.copy(tests.path(name), root / "home")


def try_root(tests: Tests) -> None:
    """In an empty root the commands run without Python, and the scripts where it is."""
    enter = next((it for it in (("chroot",), ("unshare", "--map-root-user", "chroot"))
                  if subprocess.run([*it, "/", "true"], stderr=subprocess.DEVNULL).returncode == 0),
                 None)
    if not enter or not os.access("/usr/bin/python3", os.X_OK):
        print("no root can be changed here, or /usr/bin/python3 is not there, "
              "so an empty root is not tried")
        return
    prefix = tests.path("packed")
    tests.check("--install", tests.install(prefix)[0], 0)
    for has_python in (False, True):
        root = tests.path(f"root-{has_python}")
        make_root(tests, root, has_python)
        shutil.copytree(prefix, root / "usr/local", symlinks=True)
        within = (*enter, root, shutil.which("env"), "-i", "PATH=/usr/local/bin:/usr/bin:/bin",
                  shutil.which("bash"), "-c")
        run = lambda words: tests.run(*within, f"cd /home && {words}")
        tests.check("run", run("smemu run hello.elf"), (0, tests.path("hello.report").read_text()))
        tests.check("--help", run("smemu --help"), tests.run(tests.tree / "smemu", "--help"))
        tests.check("run --help", run("smemu run -h"), tests.run(tests.tree / "smemu", "run", "-h"))
        wanted = (0, "Hello, SME!!\n") if has_python else (
            125, "smemu: exec is a script, and python3 is not there\n")
        tests.check("exec", run("smemu exec hello.elf"), wanted)
        for script in ("refused hello.elf", "show hello.report", "za-calls hello.elf hello.report",
                       "outcomes hello.elf"):
            tests.check(script, run(f"smemu {script}")[0], 0 if has_python else 125)
        tests.check("--uninstall", run("smemu --uninstall")[0], 0 if has_python else 1)
        tests.check("what is left", (root / "usr/local/lib/smemu").exists(), not has_python)


def try_user(tests: Tests) -> None:
    """A user without rights installs into ~/.local, and nowhere else."""
    home = tests.path("home")
    words: tuple[Any, ...] = ()
    home.mkdir()
    if os.getuid() == 0:
        if not os.access("/usr/bin/python3", os.X_OK) or not shutil.which("setpriv"):
            print("setpriv or /usr/bin/python3 is not there, so a user without rights is not tried")
            return
        os.chown(home, USER, USER)
        words = ("setpriv", f"--reuid={USER}", f"--regid={USER}", "--clear-groups")
    words = ("env", f"HOME={home}", "PATH=/usr/bin:/bin", *words)
    status, said = tests.install(home / ".local", *words)
    tests.check("~/.local", [status, said.splitlines()[1:]],
                [0, [f"PATH does not name {home}/.local/bin, where the command is"]])
    try_all_words(tests, home / ".local/bin/smemu", *words)
    found = tests.run(*words, "env", f"PATH={home}/.local/bin:/usr/bin:/bin", "bash", "-c",
                      "smemu --version && cd && smemu exec ~/../hello.elf")
    tests.check("by its name", found, (0, "smemu 0.1.0\nHello, SME!!\n"))
    if shutil.which("man"):
        found = tests.run(*words, "env", f"PATH={home}/.local/bin:/usr/bin:/bin", "man", "-w",
                          "smemu", "smemu-scripts")
        tests.check("man", found,
                    (0,
                     "".join(f"{home}/.local/share/man/man1/{name}.1\n"
                             for name in ("smemu", "smemu-scripts"))))
    status, said = tests.install(tests.path("denied"), *words)
    tests.check("no right",
                [status, said.startswith("smemu: install: "), "Permission denied" in said],
                [1, True, True])
    tests.check("--uninstall",
                [tests.run(*words, home / ".local/bin/smemu", "--uninstall")[0],
                 files_below(home / ".local")], [0, []])


# the words


def try_table(tests: Tests) -> None:
    """The words that are completed are those of the help; the options of a command are those that
    it takes."""
    table = {it.name: it for it in completions.table()}
    whole = tests.run(tests.tree / "smemu", "--help")[1]
    shown = re.findall(r"(?m)^  (--[a-z]+|[a-z][a-z-]*)(?: (?:\[OPTIONS\] )?\[?[A-Z]|  )",
                       re.sub(r"(?ms)^options of.*?(?=^scripts)", "", whole))
    tests.check("words", list(table), shown)
    options = sorted({option.name for verb in table.values() for option in verb.options})
    for name, verb in table.items():
        if name in verbs.SCRIPTS or name.startswith("--"):
            continue
        operands = re.findall(rf"(?m)^  {name}((?: [A-Z]+)*)", whole)[0].split()
        given = ["1" if it in ("N", "THREAD", "COUNT") else "absent" for it in operands]
        taken = [it for it in options if "missing" in tests.run(tests.smemu, name, *given, it)[1]]
        tests.check(f"options of {name}", sorted(it.name for it in verb.options), taken)
        for option in verb.options:
            for value in option.values:
                refused = "usage" in tests.run(tests.smemu, name, *given, option.name, value)[1]
                tests.check(f"{name} {option.name} {value}", refused, False)
    for name in verbs.SCRIPTS:
        for option in table[name].options:
            pattern = f"is no option|unrecognized arguments: {option.name}"
            said = tests.run(tests.tree / "smemu", name, option.name, *["0"] * bool(option.value),
                             "absent", "absent", "x")[1]
            tests.check(f"{name} {option.name}", re.findall(pattern, said), [])
    values = {(verb.name, it.name): it.values for verb in table.values() for it in verb.options
              if it.values and "vl" not in it.name}
    tests.check("values", values,
                {("show", "--size"): list("bhsd"),
                 ("profile", "--by"): ["function", "line", "address"]})


# a line that is typed, and of which word each completion is; files stand for those of the folder
TYPED = (("smemu ", None), ("smemu r", "r"), ("smemu --", "--"), ("smemu run --", ("run", "--")),
         ("smemu run --s", ("run", "--s")), ("smemu dis --", ("dis", "--")),
         ("smemu exec --svl ", ["128", "256", "512", "1024", "2048"]),
         ("smemu exec --svl 2", ["256", "2048"]), ("smemu outcomes --", ("outcomes", "--")),
         ("smemu show --size ", list("bhsd")), ("smemu --completions ", ["bash", "zsh", "fish"]),
         ("smemu sim two.elf --vl 5", ["512"]))

BASH_ASKED = """
source "$1"; read -ra COMP_WORDS <<< "$2"; [[ $2 != *' ' ]] || COMP_WORDS+=(''); COMP_CWORD=$((${#COMP_WORDS[@]} - 1)); _smemu; printf '%s\\n' "${COMPREPLY[@]}"
"""
# in the place of zsh's own functions stand some that write what they are given
ZSH_ASKED = """
words=(${(z)2}); [[ $2 != *' ' ]] || words+=(''); CURRENT=$#words; PREFIX=$words[CURRENT]
compadd() { print -l -- $@ }
_files() { : }
_describe() { print -l -- ${${(P)@[-1]}%%:*} }
source $1
"""


def wanted_of(table: dict[str, completions.Verb], kind: Any) -> list[str]:
    """The words that are to be offered."""
    if isinstance(kind, list):
        return kind
    name, start = kind if isinstance(kind, tuple) else (None, kind or "")
    return [it.name for it in (table[name].options if name else table.values())
            if it.name.startswith(start)]


def try_shells(tests: Tests) -> None:
    """Each shell offers what the table has."""
    table = {it.name: it for it in completions.table()}
    for shell, words in (("bash", ("-c", BASH_ASKED, "bash")),
                         ("zsh", ("-f", "-c", ZSH_ASKED, "zsh")),
                         ("fish", ("-N", "-c", "source $argv[1]; complete -C $argv[2]"))):
        file = tests.path(f"completions.{shell}")
        file.write_text(completions.written(shell, list(table.values())))
        if not shutil.which(shell):
            print(f"{shell} is not there, so its completions are not tried")
            continue
        for typed, kind in TYPED:
            status, said = tests.run(shell, *words, file, typed)
            # fish offers files where nothing else is offered
            found = [line.split("\t")[0] for line in said.splitlines()
                     if not os.path.exists(tests.path(line.rstrip("/")))]
            if shell == "zsh":
                found = [it for it in found if it.startswith(typed.split(" ")[-1])]
            tests.check(f"{shell}, {typed!r}", sorted(found), sorted(wanted_of(table, kind)))


def try_pages(tests: Tests) -> None:
    """The manual pages name each word, and man shows them without a warning."""
    pages = {"smemu": manual.of_command(), "smemu-scripts": manual.of_scripts()}
    names = {name.upper() for name in verbs.SCRIPTS}
    tests.check("scripts",
                names
                - {it.replace("\\-", "-")
                   for it in re.findall(r"(?m)^\.SH (.*)", pages["smemu-scripts"])}, set())
    commands = {it.name for it in completions.table()
                if not it.name.startswith("--")} - set(verbs.SCRIPTS)
    tests.check("commands",
                commands
                - {it.replace("\\-", "-")
                   for it in re.findall(r"(?m)^\\fBsmemu\\fR (\S+)", pages["smemu"])}, set())
    if not shutil.which("man"):
        print("man is not there, so its pages are not shown")
        return
    for name, text in pages.items():
        tests.path(f"{name}.1").write_text(text)
        ended = subprocess.run(["man", "--warnings=mac", "-l", tests.path(f"{name}.1")],
                               stdout=subprocess.PIPE, stderr=subprocess.PIPE, text=True,
                               env={**os.environ, "MANWIDTH": "100"})
        tests.check(f"man {name}", [ended.returncode, ended.stderr, f"{name} - " in ended.stdout],
                    [0, "", True])


def times_below(folders: tuple[str, ...]) -> dict[str, int]:
    """When each file of these folders of the repository was written last."""
    return {str(path): path.stat().st_mtime_ns for name in folders
            for path in (TOP / name).rglob("*")
            if path.is_file() and not {"out", "__pycache__"} & set(path.parts)}


def try_helps(tests: Tests) -> None:
    """Each word of the scripts has a help, which does nothing else; no script changes where modules
    are looked for."""
    folders = ("tools", "crates", "docs", "bench", "examples", "release")
    before = times_below(folders)
    for word in verbs.MODULES:
        ended = subprocess.run([TOOL, word, "--help"], stdout=subprocess.PIPE,
                               stderr=subprocess.PIPE, stdin=subprocess.DEVNULL, text=True,
                               cwd=tests.folder)
        tests.check(f"smemu-tools {word} --help",
                    [ended.returncode, ended.stdout.startswith("usage: smemu"), ended.stderr],
                    [0, True, ""])
    tests.check("what the helps have written", times_below(folders), before)
    tests.check("no word", tests.run(TOOL, "absent")[0], 1)
    listed = re.findall(r"(?m)^  ([a-z-]+) ", tests.run(TOOL)[1])
    tests.check("the list of words", listed, list(verbs.MODULES))
    scripts = [*(TOP / "tools").rglob("*.py"), TOOL]
    changing = [str(path) for path in scripts if re.search(r"(?m)^ *sys\.path\b", path.read_text())]
    tests.check("where modules are looked for", changing, [])


PARTS = (try_install, try_again, try_root, try_user, try_table, try_shells, try_pages, try_helps)


def main() -> int:
    words = argparse.ArgumentParser(description=__doc__.partition("\n\n")[0])
    words.add_argument("program", nargs="?", metavar="PROGRAM")
    smemu = pathlib.Path(words.parse_args().program or emulator.find()).resolve()
    with tempfile.TemporaryDirectory() as folder:
        tests = Tests(str(smemu), folder)
        for test in PARTS:
            test(tests)
    print(f"{tests.number} checks, {tests.faults} failed")
    return 1 if tests.faults else 0
