#!/usr/bin/env python3
"""Writes src/colmjurr/schema.py from messages.txt.

    python3 write_schema.py            writes the file
    python3 write_schema.py --check    compares, and exits with 1 if the file differs
"""
import sys
from pathlib import Path

HERE = Path(__file__).resolve().parent
TARGET = HERE.parent / "src" / "colmjurr" / "schema.py"
HEAD = '''"""The types and messages of the wire profile. Written by tools/write_schema.py from tools/messages.txt: edit that.

A type is a text: `[T]` an array of T, `{T}` a map from texts to T, `T?` null or T, `A|B` one of several branches, and else a name.
"""
'''


def read_fields(words):
    """The pairs of a field's name and type, and the field that goes on from part to part."""
    growing = [word[1:].split(":")[0] for word in words if word.startswith("+")]
    return tuple(tuple(word.lstrip("+").split(":", 1)) for word in words), growing[0] if growing else None


def read_table(lines):
    table = {"fixed": {}, "enum": {}, "record": {}, "protocol": {}, "message": {}, "common": {}, "growing": {}}
    for line in lines:
        what, *words = line.split("#")[0].split() or [""]
        match what:
            case "":
                continue
            case "fixed":
                table[what][words[0]] = int(words[1])
            case "enum":
                table[what][words[0]] = tuple(words[1:])
            case "record":
                table[what][words[0]] = read_fields(words[1:])[0]
            case "protocol":
                table[what][int(words[0])] = words[1]
            case "message":
                protocol, number, sender, name, *fields = words
                pairs, growing = read_fields(fields)
                table[what][int(protocol), int(number)] = (name, sender, pairs)
                table["growing"][name] = growing
            case "common":
                number, sender, name, *fields = words
                pairs, growing = read_fields(fields)
                table[what][int(number)] = (name, sender, pairs)
                table["growing"][name] = growing
            case _:
                raise SystemExit(f"no such line: {line}")
    return table


def written(name, hint, rows):
    lines = [f"{name}: {hint} = {{"]
    for key, value in rows.items():
        lines.append(f"    {key!r}: {value!r},")
    return "\n".join([*lines, "}"]).replace("'", '"')


def schema_text(table):
    for (protocol, _), _ in table["message"].items():
        if protocol not in table["protocol"]:
            raise SystemExit(f"no protocol {protocol}")
    fields = "tuple[tuple[str, str], ...]"
    growing = {name: field for name, field in table["growing"].items() if field}
    parts = [
        HEAD,
        "# The sizes of fixed runs of bytes, the symbols of enumerations, and the fields of records.",
        written("FIXED", "dict[str, int]", table["fixed"]),
        written("ENUMS", "dict[str, tuple[str, ...]]", table["enum"]),
        written("RECORDS", f"dict[str, {fields}]", table["record"]),
        "\n# The names of the protocols by their numbers.",
        written("PROTOCOLS", "dict[int, str]", table["protocol"]),
        "\n# By protocol and number: a message's name, who sends it (C the client, S the server, B both), and its fields.",
        written("MESSAGES", f"dict[tuple[int, int], tuple[str, str, {fields}]]", table["message"]),
        "\n# By number: the messages that every protocol has.",
        written("COMMON", f"dict[int, tuple[str, str, {fields}]]", table["common"]),
        "\n# The field whose items are continued in each part, if a message is sent in parts.",
        written("GROWING", "dict[str, str]", growing),
    ]
    return "\n".join(parts) + "\n"


def main():
    made = schema_text(read_table((HERE / "messages.txt").read_text().splitlines()))
    if sys.argv[1:] == ["--check"]:
        if not TARGET.exists() or TARGET.read_text() != made:
            sys.exit(f"{TARGET} is not what messages.txt says: run tools/write_schema.py")
    else:
        TARGET.write_text(made)


if __name__ == "__main__":
    main()
