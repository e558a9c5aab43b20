"""Writes completions of the command for a shell, made of what its helps say.

    ./smemu --completions bash|zsh|fish

The commands, the scripts and the words of the wrapper are those of `smemu --help`, and the options
of each are those of `smemu VERB --help`: a word that no help has is not offered, and each that one
has is.
"""
from __future__ import annotations

import argparse
import collections
import functools
import os
import re
import subprocess
from typing import Any

from smemu_tools import TOP
from smemu_tools.user import execute

SHELLS = ("bash", "zsh", "fish")

# a word of the command, what it is, and its options
Verb = collections.namedtuple("Verb", "name text options")
# an option, the name of its value or None, what it is, and the values where these are few
Option = collections.namedtuple("Option", "name value text values")


def asked(*words: str) -> str:
    """What the wrapper says, of a script with each option in one line."""
    said = subprocess.run([TOP / "smemu", *words], stdin=subprocess.DEVNULL, stdout=subprocess.PIPE,
                          check=True, text=True, env={**os.environ, "COLUMNS": "10000"})
    return said.stdout


def entries(text: str) -> list[list[str]]:
    """Each line of a help that stands for a word or an option: what stands there, and what it
    is."""
    found = []
    for line in text.split("\n"):
        entry = re.fullmatch(r"  (?:-h, )?((?:--)?[a-z][a-z-]*)((?: \S+)*)(?:  +(.*))?", line)
        more = re.fullmatch(r" {10,}(\S.*)", line)
        if entry:
            found.append([entry[1], entry[2].strip(), entry[3] or ""])
        elif more and found:
            found[-1][2] = f"{found[-1][2]} {more[1]}".strip()
    return found


def values_of(value: str, text: str) -> list[str]:
    """The values that an option may have, if they are few."""
    if value.startswith("{"):
        return value[1:-1].split(",")
    numbers = re.search(r"(?:\d+, )+\d+ or \d+", text)
    return re.findall(r"\d+", numbers[0]) if numbers else []


def options_of(verb: str) -> list[Option]:
    """The options that the help of a word shows, but for that help."""
    found = [it for it in entries(asked(verb, "--help"))
             if it[0].startswith("--") and it[0] != "--help"]
    return [Option(name, value or None, text, values_of(value, text))
            for name, value, text in found]


@functools.lru_cache()
def table() -> list[Verb]:
    """All words that may stand first, each with its options."""
    text = asked("--help")
    parts = [part for part in text.split("\n\n")
             if not part.startswith(("options", "statuses", "what"))]
    words = [(name, text) for part in parts for name, _, text in entries(part)]
    made = {name: options_of(name) for name, _ in words if not name.startswith("-")}
    known = {it.name: it for it in made["run"]}
    # exec takes those of run
    made["exec"] = [known[name] for name in execute.OPTIONS]
    for options in made.values():
        # a length is one wherever it is asked for
        options[:] = [it._replace(values=it.values or known[it.name].values) if it.name in known
                      else it for it in options]
    return [Verb(name, text, made.get(name, [])) for name, text in words]


def quoted(text: str) -> str:
    return "'" + text.replace("'", "'\\''") + "'"


def by_values(verbs: list[Verb]) -> list[tuple[str, str]]:
    """The values of options that have few, each with a pattern of the words after which they
    stand."""
    sorts = collections.defaultdict(list)
    for verb, option in ((verb, option) for verb in verbs for option in verb.options
                         if option.values):
        sorts[" ".join(option.values)].append(quoted(f"{verb.name} {option.name}"))
    sorts[" ".join(SHELLS)].append("'--completions --completions'")
    return [(values, " | ".join(patterns)) for values, patterns in sorts.items()]


BASH = """# Completes the words of smemu in bash, written of its helps by `smemu --completions bash`.
_smemu() {{
    local word=${{COMP_WORDS[COMP_CWORD]}} before=${{COMP_WORDS[COMP_CWORD - 1]}} words=
    if [ "$COMP_CWORD" -eq 1 ]; then
        words={first}
    else
        case "${{COMP_WORDS[1]}} $before" in
{values}        *)
            [[ $word != -* ]] || case ${{COMP_WORDS[1]}} in
{options}            esac
            ;;
        esac
    fi
    mapfile -t COMPREPLY < <(compgen -W "$words" -- "$word")
}}
complete -o bashdefault -o default -F _smemu smemu
"""


def bash(verbs: list[Verb]) -> str:
    values = "".join(f"        {pattern}) words={quoted(values)} ;;\n"
                     for values, pattern in by_values(verbs))
    options = "".join(f"            {it.name}) "
                      f"words={quoted(' '.join(option.name for option in it.options))} ;;\n"
                      for it in verbs if it.options)
    return BASH.format(first=quoted(" ".join(it.name for it in verbs)), values=values,
                       options=options)


ZSH = """#compdef smemu
# Completes the words of smemu in zsh, written of its helps by `smemu --completions zsh`.
local -a found
if (( CURRENT == 2 )); then
    found=(
{first}    )
    _describe -t commands 'word' found
    return
fi
case "$words[2] $words[CURRENT-1]" in
{values}esac
if [[ $PREFIX == -* ]]; then
    case $words[2] in
{options}    esac
    _describe -o -t options 'option' found
else
    _files
fi
"""


def described(items: Any, left: str) -> str:
    """A line for each word with what it is."""
    return "".join(f"{left}{quoted(it.name + (':' + it.text if it.text else ''))}\n"
                   for it in items)


def zsh(verbs: list[Verb]) -> str:
    values = "".join(f"    {pattern}) compadd {values}; return ;;\n"
                     for values, pattern in by_values(verbs))
    options = "".join(f"    {it.name}) found=(\n{described(it.options, ' ' * 8)}        ) ;;\n"
                      for it in verbs if it.options)
    return ZSH.format(first=described(verbs, " " * 8), values=values, options=options)


FISH = """# Completes the words of smemu in fish, written of its helps by `smemu --completions fish`.
function __smemu_is
    set -l words (commandline -opc)
    test (count $words) -gt 1; and test $words[2] = $argv[1]
end
function __smemu_is_first
    test (count (commandline -opc)) -eq 1
end
"""


def fish(verbs: list[Verb]) -> str:
    said = [FISH + f"complete -c smemu -n '__smemu_is --completions' -f -a '{' '.join(SHELLS)}'"]
    escaped = lambda text: "'" + text.replace("\\", "\\\\").replace("'", "\\'") + "'"
    for verb in verbs:
        said.append(
            f"complete -c smemu -n __smemu_is_first -f -a {verb.name} -d {escaped(verb.text)}")
        for it in verb.options:
            value = (f" -x -a {escaped(' '.join(it.values))}" if it.values else " -r" if it.value
                     else "")
            text = f" -d {escaped(it.text)}" if it.text else ""
            said.append(
                f"complete -c smemu -n '__smemu_is {verb.name}' -l {it.name[2:]}{value}{text}")
    return "\n".join(said) + "\n"


def written(shell: str, verbs: list[Verb]) -> str:
    """The completions for a shell."""
    return {"bash": bash, "zsh": zsh, "fish": fish}[shell](verbs)


def main() -> int:
    words = argparse.ArgumentParser(prog="smemu --completions",
                                    description=__doc__.partition("\n\n")[0])
    words.add_argument("shell", choices=SHELLS)
    print(written(words.parse_args().shell, table()), end="")
    return 0
