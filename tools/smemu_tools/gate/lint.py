"""Checks the scripts by ruff and mypy, each where it is on the PATH, with the settings of
pyproject.toml.

    tools/smemu-tools lint

The status is 0 where neither finds anything.
"""
from __future__ import annotations

import shutil
import subprocess
from typing import Any

from smemu_tools import TOP, parser

CHECKS = (("ruff", "check", "tools"), ("mypy",))


def main() -> Any:
    parser(__doc__).parse_args()
    status = 0
    for words in CHECKS:
        if shutil.which(words[0]):
            status |= subprocess.run(words, cwd=TOP).returncode != 0
        else:
            print(f"lint: {words[0]} is not there, so it is not asked")
    return status
