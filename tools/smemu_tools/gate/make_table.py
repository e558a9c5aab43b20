"""Writes what follows from src/texts.rt: the shapes by their bits, the indices of their texts,
their operands as lists, which shapes a word's top byte may have (src/shapes.rt with its two lists,
items.rt, printed.rt), the mnemonics (src/mnemonics.rt) and the slots of mnemonics and keywords in
asm_tokens.

It reads the rows and the fields of a64_table and the operands of src/operands.rt, and expands the
macros of src/texts.rt. Nothing rests on it: `shapes_are_texts` says that each shape is its text, in
the order of mnemonics and then of the texts.
"""
from __future__ import annotations

import re
from typing import Any

from smemu_tools import TOP, parser

HERE = TOP / "crates" / "insn_text"
SCALARS, VECTORS = HERE.parent / "a64_table" / "src", HERE.parent / "sve_table" / "src"
FREE, FACTOR = 65535, 379


def read(path: Any) -> Any:
    return re.sub(r"//.*", "", path.read_text())


# ---- fields, rows and operands
def fields_of(table: Any) -> Any:
    """The fields of a table by name."""
    found = {}
    for name, places in re.findall(r"pub const (\w+): Field = field!\(([^)]*)\);",
                                   read(table / "fields.rt")):
        numbers = [int(n) for n in re.findall(r"\d+", places)]
        upper_low, upper_width, low, width = numbers if "above" in places else [0, 0, *numbers]
        found[name] = dict(low=low, width=width, upper_low=upper_low, upper_width=upper_width)
    return found


FIELDS = fields_of(SCALARS)
VECTOR_FIELDS = fields_of(VECTORS)
ROWS = {re.sub(r"\s", "", op): (int(mask, 16), int(value, 16), fields.split())
        for table in (SCALARS, VECTORS)
        for mask, value, op, fields
        in re.findall(r"(0x\w+) (0x\w+) (G\d+\(.*?\)) \[(.*?)\];", read(table / "rows.rt"))}
SOURCE = read(HERE / "src" / "operands.rt")
VECTOR_SOURCE = read(HERE / "src" / "vector_operands.rt")


def number(text: Any) -> Any:
    return eval(re.sub(r"(\w+)\.(\w+)", lambda m: str(FIELDS[m[1]][m[2]]), text))


for name, body in re.findall(r"const (\w+): Field = Field \{(.*?)\};", SOURCE, re.S):
    FIELDS[name] = {key: number(text) for key, text in re.findall(r"(\w+): ([^,}]+)", body)}
OPERANDS = dict(re.findall(r"\((\w+)\) => \{\s+operand_of!\((?:Kind::\w+(?: \{.*?\}|\(.*?\))?|\w+), ([\w!():]+?)(?:, \w+)?\)\s+\};",
                           SOURCE.replace("scalar_fields::", "")))
SCALAR_OPERANDS = set(OPERANDS)
OPERANDS.update(re.findall(r"\((\w+)\) => \{\s+(\w+!\(.*\))\s+\};",
                           VECTOR_SOURCE.replace("scalar_fields::", "")))


def by_size(name: Any, size: Any, width: Any) -> Any:
    """A register's field with the size of its elements, or the lower bits of it, above it."""
    return dict(VECTOR_FIELDS[name], upper_low=VECTOR_FIELDS[size]["low"], upper_width=width)


def vector_field(text: Any) -> Any:
    """The field of an operand of vector_operands.rt."""
    macro, given = re.fullmatch(r"(\w+)!\((.*)\)", text).groups()
    field: Any = given.split(", ")[-1] if macro != "operand_of" else re.fullmatch(
        r"Kind::\w+(?: \{.*?\}|\(.*?\))?, ([\w:]+)(?:, \w+)?|\w+, (\w+)(?:, \w+)?", given)
    if macro == "operand_of":
        name = field[1] or field[2]
        return VECTOR_FIELDS[name[15:]] if name.startswith("vector_fields::") else FIELDS[name]
    if macro == "word":
        return FIELDS["NONE"]
    if macro == "low_part":
        return VECTOR_FIELDS["VD"]
    if size := re.fullmatch(r"by_(low_)?size!\((\w+)\)", field):
        return by_size(size[2], "SIZE", 1 if size[1] else 2)
    if size := re.fullmatch(r"by_element_size!\((.*)\)", field):
        return by_size("ZT", "ELEMENT_SIZE", 1 if size[1] == "1" else 2)
    return VECTOR_FIELDS[field.replace("vector_fields::", "")]


def field_of(operand: Any) -> Any:
    text = OPERANDS[operand]
    if operand not in SCALAR_OPERANDS:
        return vector_field(text)
    if text.startswith("short!"):
        field = FIELDS[text[7:-1]]
        return dict(field, width=field["width"] - 1)
    return FIELDS[text]


def mask_of(field: Any) -> Any:
    return ((1 << field["upper_width"]) - 1 << field["upper_low"]) + ((1 << field["width"])
                                                                      - 1 << field["low"])


def placed(field: Any, n: Any) -> Any:
    return (n >> field["width"] & (1 << field["upper_width"])
            - 1) << field["upper_low"] | (n & (1 << field["width"]) - 1) << field["low"]


# ---- the texts, as the macros write them
SCALAR_TEXTS, VECTOR_TEXTS = read(HERE / "src" / "texts.rt"), read(HERE / "src" / "vector_texts.rt")


def macro(name: Any, source: Any) -> Any:
    """The pattern of a macro's lines, with a group for each variable, and the texts that it writes
    of a line."""
    pattern, body = re.search(r"macro_rules! %s \{\s*\(\$\((.*?);\)\*\) => \{(.*?)\n    \};" % name,
                              source, re.S).groups()
    pattern = re.escape(re.sub(r"\s+", " ", pattern.strip())).replace(r"\ ", " ")
    pattern = re.sub(r"\\\$\\\(\\\$(\w+):ident\\\)\\\.\\\+", r"(?P<\1>[\\w.]+)", pattern)
    pattern = re.sub(r"\\\$\\\(\\\$(\w+):tt\\\)\\\*", r"(?P<\1>.*?)", pattern)
    pattern = re.sub(r"\\\$(\w+):(?:ident|literal)", r"(?P<\1>\\w+)", pattern)
    return pattern, re.findall(r"text!\((.*)\)", re.sub(r"\n {12,}(?!text!|\s)", " ", body))


def given(text: Any, match: Any) -> Any:
    """The text with what a line gives for the variables."""
    for name, value in sorted(match.groupdict().items(), key=lambda it: -len(it[0])):
        text = text.replace(f"$(${name})*", value).replace(f"$(${name}).+",
                                                           value).replace(f"${name}", value)
    return text


WIDTHS = {of: dict(re.findall(r"\((\w+)\) => \{ index_of!\((\w+)\) \};", body))
          for of, body
          in re.findall(r"macro_rules! (in_\w+) \{(.*?)\n\}", SCALAR_TEXTS + VECTOR_TEXTS, re.S)}


def text_of(body: Any) -> Any:
    of, kind, name, operation, sets, items = re.fullmatch(
        r"(\w+) (\w+) \[(.*?)\] (G\d+\(.*\)) \[(.*?)\] \((.*)\)", body.strip()).groups()
    operands = [WIDTHS.get(of, {}).get(word, word) for word in items.replace(",", " comma").split()]
    return dict(alias=kind == "alias", name=name.replace(" ", ""), tokens=name,
                operation=re.sub(r"\s", "", operation),
                sets=[(field, int(n)) for field, n in re.findall(r"(\w+) ?= ?(\d+)", sets)],
                operands=operands)


def expanded() -> Any:
    """The texts: whether it is an alias, its name, the operation, the fields that are set, the
    operands."""
    found = []
    for source in (SCALAR_TEXTS, VECTOR_TEXTS):
        for name, lines in re.findall(
                r"pub static \w+: \[Wording<Operation>; \d+\] = (\w+)! \{(.*?)\n\};", source, re.S):
            pattern, bodies = macro(name, source)
            for line in lines.split(";")[:-1]:
                match = re.fullmatch(pattern, re.sub(r"\s+", " ", line.strip()))
                found += [dict(text_of(given(body, match)),
                               fields=FIELDS if source is SCALAR_TEXTS else VECTOR_FIELDS)
                          for body in bodies]
    return found


def bits_of(text: Any) -> Any:
    """The bits that a text fixes: all but those of its operands' fields."""
    _, value, _ = ROWS[text["operation"]]
    free = 0
    for operand in text["operands"]:
        free |= mask_of(field_of(operand))
    for field, n in text["sets"]:
        value |= placed(text["fields"][field], n)
    return 0xFFFFFFFF - free, value


# ---- the tables
def numbers(ns: Any, per: Any = 20) -> Any:
    return ["    " + ", ".join(map(str, ns[i:i + per])) + "," for i in range(0, len(ns), per)]


def list_of(text: Any) -> Any:
    """The list that has the operands: those of the scalar instructions, of vectors, and of stores,
    ZA and tiles."""
    group = int(re.match(r"G(\d+)", text["operation"])[1])
    return ("Scalar" if group < 24 else "Matrix" if group > 38 or "Store" in text["operation"]
            else "Vector")


def lines_of(words: Any) -> Any:
    """Words in lines of at most 100 columns, the last with a semicolon."""
    lines = ["   "]
    for word in words:
        if len(lines[-1]) + len(word) > 100:
            lines.append("   ")
        lines[-1] += " " + word
    return [*lines[:-1], lines[-1] + ";"]


def list_lines(key: Any, first: Any) -> Any:
    """The line of a list of operands with its index, or the lines of at most 110 columns."""
    line, (*words, last) = "   ", key
    lines = []
    for word in [*words, f"{last}; // {first}"]:
        if len(line) + 1 + len(word) > 110:
            lines.append(line)
            line = "       "
        line += " " + word
    return [*lines, line]


def hash_of(text: Any, size: Any) -> Any:
    h = 0
    for c in text.encode():
        h = (h * FACTOR + c) % size
    return h


def slots(texts: Any, size: Any) -> Any:
    """Where each text stands: in the first free slot from that of its hash on, at most 16 steps
    away."""
    places = [FREE] * size
    for i, text in enumerate(texts):
        at = next(k for k in range(16) if places[(hash_of(text, size) + k) % size] == FREE)
        places[(hash_of(text, size) + at) % size] = i
    return places


def write(path: Any, *lines: Any) -> None:
    path.write_text("\n".join(lines) + "\n")


def main() -> None:
    parser(__doc__).parse_args()
    texts = expanded()
    names = {text["name"]: text["tokens"] for text in texts}
    ordered = sorted(names)
    order = sorted(range(len(texts)), key=lambda k: (texts[k]["name"], k))
    flat, lists, shapes, starts, roots, printed = {"Scalar": [], "Vector": [],
                                                   "Matrix": []}, {}, [], [], [], []
    for k in order:
        text, key = texts[k], tuple(texts[k]["operands"])
        if key not in lists:
            of = list_of(text)
            lists[key] = of, len(flat[of])
            flat[of] += key
        shapes.append((*bits_of(text), ordered.index(text["name"]), *lists[key], len(key),
                       text["alias"]))
    for index in range(len(ordered) + 1):
        starts.append(next((k for k, s in enumerate(shapes) if s[2] >= index), len(shapes)))
    for top in range(256):
        roots.append(len(printed))
        printed += [k for k, s in enumerate(shapes)
                    if not s[6] and (top << 24 ^ s[1]) & s[0] & 0xFF000000 == 0]
    roots.append(len(printed))
    src, by = HERE / "src", "as `make_table.py` writes "
    write(src / "mnemonics.rt", f"//! The mnemonics of instructions and aliases, {by}them.", "",
          "// A mnemonic by the parts of which a text has it.", "macro_rules! mnemonic {",
          *[f'    ({names[n]}) => {{ Text {{ bytes: *b"{n}{chr(92)}0'.replace("\\0", "")
            + "\\0" * (12 - len(n)) + f'", length: {len(n)} }} }};' for n in ordered], "}", "",
          "// All of them, in order.", "macro_rules! all_mnemonics {", "    () => {", "        [",
          *[f"            mnemonic!({names[n]})," for n in ordered], "        ]", "    };", "}", "",
          "pub(crate) use {all_mnemonics, mnemonic};")
    heads = ["use crate::item::{Item, Kind, Rule, VectorFile};",
             "use crate::operands::{HW_IMM16, IMMR_IMMS, LONG_SHIFT, N_IMMR_IMMS, "
             "SHORT_HW_IMM16, SHORT_SHIFT, W, W_SP, X, X_SP, operand, operand_of, "
             "short};",
             "use crate::vector_operands::{by_element_size, by_low_size, by_size, index, "
             "low_part, low_predicate, predicate, right, signed, tile, up_to, vector, "
             "vector_operand, word};", "use a64_table::fields as scalar_fields;",
             "use insn_forms::Field;", "use sve_table::fields as vector_fields;", "",
             "macro_rules! items {", "    ($($($item:ident)+;)*) => {",
             "        [$($(operand!($item)),+),*]", "    };", "}", ""]
    write(src / "operand_items.rt",
          f"//! The operands of texts, {by}them from those of operands.rt and vector_operands.rt.",
          *heads, "// The index of an operand in `OPERANDS`, by its name.",
          "macro_rules! index_of {",
          *[f"    ({name}) => {{ {index} }};" for index, name in enumerate(OPERANDS)], "}", "",
          "pub(crate) use index_of;", "", "/// The operands of texts, each once.",
          f"pub static OPERANDS: [Item; {len(OPERANDS)}] = items! {{", *lines_of(OPERANDS), "};")
    write(src / "items.rt", f"//! The operands of the shapes, {by}them.", *heads,
          *[line
            for of, ident
            in (("Scalar", "ITEMS"), ("Vector", "VECTOR_ITEMS"), ("Matrix", "MATRIX_ITEMS"))
            for line
            in (f"/// The operands of the shapes of `ItemList::{of}`, one list after "
                f"another; beside a list is its index.",
                f"pub static {ident}: [Item; {len(flat[of])}] = items! {{",
                *[line for key, (own, first) in lists.items() if key and own == of
                  for line in list_lines(key, first)], "};", "")])
    first = next(k for k, s in enumerate(shapes) if ordered[s[2]] >= "m")
    shape_lines = [
        f"            0x{m:08X} 0x{v:08X} {n} {of} {f} {c} {str(a).lower()}; // {ordered[n]}"
        for m, v, n, of, f, c, a in shapes]
    for name, letters, part in (("a_to_l", "a to l", shape_lines[:first]),
                                ("m_to_z", "m to z", shape_lines[first:])):
        write(src / f"shapes_{name}.rt",
              f"//! The shapes of the mnemonics from {letters}, {by}them.", "",
              "// Writes a table with the lines given and those of these shapes, "
              "by mnemonic: mask, value, the index of the",
              "// mnemonic, the list and the index of the operands and their number, "
              "and whether the shape is an alias.", f"macro_rules! shapes_{name} {{",
              "    ($table:ident { $($lines:tt)* }) => {", "        $table! {",
              "            $($lines)*", *part, "        }", "    };", "}", "",
              f"pub(crate) use shapes_{name};")
    write(src / "shapes.rt",
          f"//! The shapes of the instructions' texts, {by}them from those of "
          f"texts.rt.", "use crate::item::{ItemList, Shape};",
          "use crate::shapes_a_to_l::shapes_a_to_l;", "use crate::shapes_m_to_z::shapes_m_to_z;",
          "", "macro_rules! shapes {", "    ($(",
          "        $mask:literal $value:literal $mnemonic:literal "
          "$list:ident $first:literal $count:literal", "        $alias:literal;",
          "    )*) => {", "        [$(Shape {",
          "            mask: $mask, value: $value, mnemonic: $mnemonic,",
          "            list: ItemList::$list, first: $first, count: $count, "
          "alias: $alias,", "        }),*]", "    };", "}", "",
          "// The shapes of the mnemonics from m on, after the lines given.",
          "macro_rules! shapes_to_z {",
          "    ($($lines:tt)*) => { shapes_m_to_z! { shapes { $($lines)* } } };", "}", "",
          "/// The shapes of the texts, by mnemonic.",
          f"pub static SHAPES: [Shape; {len(shapes)}] = shapes_a_to_l! "
          f"{{ shapes_to_z {{}} }};", "",
          "/// The indices of their texts, the lists of texts.rt one after another.",
          f"pub static ORDER: [u16; {len(order)}] = [", *numbers(order), "];", "",
          "/// Where the shapes of each mnemonic begin, and the end.",
          f"pub static STARTS: [u16; {len(starts)}] = [", *numbers(starts), "];")
    write(src / "printed.rt",
          f"//! Which shapes the words of each top byte may have, {by}them.", "",
          "/// Where the indices in `PRINTED` begin for each value of the "
          "top byte of a word, and the end.", "pub static ROOTS: [u16; 257] = [",
          *numbers(roots), "];", "",
          "/// The indices of the shapes that are no aliases and that a word "
          "with the top byte may have, in order.",
          f"pub static PRINTED: [u16; {len(printed)}] = [", *numbers(printed), "];")
    words = re.findall(r'b"(\w+)',
                       re.search(r"static KEYWORDS.*?\};", (src / "keywords.rt").read_text(),
                                 re.S)[0])
    lines = [f"//! Where keywords and mnemonics stand in their tables, by hash, "
             f"{by[:-7]}of insn_text writes it.", "", "/// The factor of the hash.",
             f"pub const FACTOR: u32 = {FACTOR};", "", "/// What a free slot has.",
             f"pub const FREE: u16 = {FREE};"]
    for ident, listed, size in (("KEYWORD", words, 512), ("MNEMONIC", ordered, 1024)):
        lines += ["",
                  "/// The index of the text in each slot: its hash's, or one of the 15 after it.",
                  f"pub static {ident}_SLOTS: [u16; {size}] = [", *numbers(slots(listed, size)),
                  "];"]
    write(HERE.parent / "asm_tokens" / "src" / "slots.rt", *lines)
    print(len(texts), "texts,", len(ordered), "mnemonics,", len(lists), "lists of",
          *[len(it) for it in flat.values()], "operands,", len(printed), "printed,", len(words),
          "keywords")
