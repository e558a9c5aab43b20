"""The scripts of smemu: for its users, and for those who change it. tools/smemu-tools starts
them."""
from __future__ import annotations

import argparse
import pathlib

# the top of the repository, or of an installation
TOP = pathlib.Path(__file__).resolve().parent.parent.parent
# what starts a script by its word
TOOL = TOP / "tools" / "smemu-tools"


def parser(text: str) -> argparse.ArgumentParser:
    """A parser of a script's words, whose help is what the script says of itself."""
    return argparse.ArgumentParser(description=text,
                                   formatter_class=argparse.RawDescriptionHelpFormatter)
