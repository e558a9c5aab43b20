"""Installs the command below a folder, as /usr/local or ~/.local, or takes it away again.

    ./smemu --install PREFIX
    ./smemu --uninstall PREFIX; smemu --uninstall

What goes where:

    bin/smemu                    the command, a link to the wrapper lib/smemu/                   the
    wrapper, the program, the scripts, and `files`, which lists all of these share/man/man1/
    smemu.1, and smemu-scripts.1 of the scripts share/doc/smemu/             the pages of docs/
    share/bash-completion/completions/smemu, share/zsh/site-functions/_smemu,
    share/fish/vendor_completions.d/smemu.fish

No file there names the folder, so it may be packed, and unpacked elsewhere. An installation that
stands there already is replaced; a file of that name that none has put there is not, and nothing is
installed.
"""
from __future__ import annotations

import argparse
import contextlib
import os
import pathlib
import shutil
import subprocess
import sys
from typing import Any

from smemu_tools import TOOL, TOP
from smemu_tools.user import completions, emulator, manual

HOME = "lib/smemu"
LIST = f"{HOME}/files"
COMPLETIONS = {"bash": "share/bash-completion/completions/smemu",
               "zsh": "share/zsh/site-functions/_smemu",
               "fish": "share/fish/vendor_completions.d/smemu.fish"}
PAGES = "share/doc/smemu"


class Fault(Exception):
    """What keeps a folder as it is."""


def contents(program: pathlib.Path) -> dict[str, Any]:
    """Each file of an installation with what it is: bytes, a file that is copied, or the target of
    a link."""
    verbs = completions.table()
    copied: dict[str, Any] = {f"{HOME}/smemu": TOP / "smemu", f"{HOME}/smemu_cli": program}
    copied[f"{HOME}/tools/smemu-tools"] = TOOL
    package = TOP / "tools" / "smemu_tools"
    user = package / "user"
    scripts = [*package.glob("*.py"), *user.glob("*.py"), user / "gdbinit",
               *(user / "page").iterdir()]
    copied.update((f"{HOME}/tools/{it.relative_to(TOP / 'tools')}", it) for it in sorted(scripts))
    copied.update((f"{PAGES}/{it.name}", it) for it in sorted((TOP / "docs").glob("*.md")))
    made = {path: completions.written(shell, verbs).encode() for shell, path in COMPLETIONS.items()}
    made["share/man/man1/smemu.1"] = manual.of_command().encode()
    made["share/man/man1/smemu-scripts.1"] = manual.of_scripts().encode()
    links = {"bin/smemu": f"../{HOME}/smemu", f"{HOME}/docs": f"../../{PAGES}"}
    return {**copied, **made, **links}


def listed(prefix: pathlib.Path) -> list[str]:
    """The names in an installation's list, folders that it made with a slash behind them."""
    try:
        return (prefix / LIST).read_text().splitlines()
    except FileNotFoundError:
        return []


def folders_to_make(prefix: pathlib.Path, names: list[str]) -> list[pathlib.Path]:
    """The folders above these files that are not there, each behind the one that holds it."""
    above = {parent for name in names for parent in (prefix / name).parents}
    return sorted(it for it in above if not it.exists())


def put(path: pathlib.Path, content: bytes | pathlib.Path | str) -> None:
    """Puts a file in place at once, as those that start it meanwhile need it."""
    new = path.with_name(f"{path.name}.new")
    with contextlib.suppress(FileNotFoundError):
        new.unlink()
    if isinstance(content, str):
        os.symlink(content, new)
    elif isinstance(content, bytes):
        new.write_bytes(content)
    else:
        shutil.copyfile(content, new)
        new.chmod(0o755 if os.access(content, os.X_OK) else 0o644)
    new.replace(path)


def install(prefix: pathlib.Path, program: pathlib.Path) -> int:
    files, before = contents(program), listed(prefix)
    foreign = [name for name in files if os.path.lexists(prefix / name) and name not in before]
    if foreign:
        raise Fault(f"{prefix / foreign[0]} is there, and no installation has put it there")
    made = folders_to_make(prefix, [*files, LIST])
    for folder in made:
        folder.mkdir()
    # what stands in the list is taken away again, also where it is interrupted from here on
    inside = [f"{it.relative_to(prefix)}/" for it in made if prefix in it.parents]
    kept = [name for name in before if name.endswith("/")]
    put(prefix / LIST, "".join(f"{name}\n" for name in [*kept, *inside, *files, LIST]).encode())
    for name, content in files.items():
        put(prefix / name, content)
    remove(prefix,
           [name for name in before if name not in files and name != LIST and name[-1] != "/"])
    return len(files) + 1


def remove(prefix: pathlib.Path, names: list[str]) -> None:
    """Takes away files, and then folders where they are empty."""
    for name in names:
        if not name.endswith("/"):
            with contextlib.suppress(FileNotFoundError):
                (prefix / name).unlink()
    for name in sorted(names, reverse=True):
        if name.endswith("/"):
            with contextlib.suppress(OSError):
                (prefix / name).rmdir()


def uninstall(prefix: pathlib.Path) -> int:
    names = listed(prefix)
    if not names:
        raise Fault(f"there is no installation in {prefix}: it has no {LIST}")
    remove(prefix, names)
    return sum(not name.endswith("/") for name in names)


def say_paths(prefix: pathlib.Path) -> None:
    """Says where a shell does not look."""
    folders = [pathlib.Path(it).resolve() for it in os.environ.get("PATH", "").split(os.pathsep)
               if it]
    if (prefix / "bin").resolve() not in folders:
        print(f"PATH does not name {prefix / 'bin'}, where the command is")


def main() -> int:
    words = argparse.ArgumentParser(prog="smemu", description=__doc__,
                                    formatter_class=argparse.RawDescriptionHelpFormatter)
    words.add_argument("what", choices=("install", "uninstall"))
    words.add_argument("prefix", nargs="?", type=pathlib.Path, metavar="PREFIX")
    asked = words.parse_args()
    is_installed = (TOP / "files").is_file()
    prefix = asked.prefix or (TOP.parent.parent if is_installed and asked.what == "uninstall"
                              else None)
    if is_installed and asked.what == "install":
        words.error("--install is a word of ./smemu in the repository, and this is an installation")
    if prefix is None:
        words.error(f"--{asked.what} needs a PREFIX, as ~/.local")
    prefix = prefix.expanduser().absolute()
    try:
        if asked.what == "install":
            print(f"installed in {prefix}: {install(prefix, pathlib.Path(emulator.find()))} files")
            say_paths(prefix)
        else:
            print(f"taken away from {prefix}: {uninstall(prefix)} files")
    except (Fault, OSError, subprocess.CalledProcessError) as fault:
        print(f"smemu: {asked.what}: {fault}", file=sys.stderr)
        return 1
    return 0
