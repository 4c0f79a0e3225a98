"""Writes what others read the schema from: docs/schemas, a file of Avro's JSON for each message and one for the header, with a
list of the messages; and docs/MESSAGES.md, the fields of every message."""
import json

from schema_file import Enumeration, Message

SENDERS = {"client": "the client", "server": "the server", "both": "both"}


def avro(schema, type, known):
    """A type in Avro's JSON. A type whose name is in `known` is that name; a named one is put there."""
    match type.kind:
        case "leaf" if type.name != "Uuid":
            return type.name
        case "list":
            return {"type": "array", "items": avro(schema, type.parts[0], known)}
        case "map":
            return {"type": "map", "values": avro(schema, type.parts[0], known)}
        case "optional":
            return ["null", avro(schema, type.parts[0], known)]
        case "union":
            return [avro(schema, each, known) for each in type.parts]
    if type.name in known:
        return type.name
    known.add(type.name)
    if type.name == "Uuid":
        return {"type": "fixed", "name": "Uuid", "size": 16}
    return avro_named(schema, schema.named[type.name], known)


def avro_named(schema, what, known):
    if isinstance(what, Enumeration):
        return {"type": "enum", "name": what.name, "symbols": what.symbols}
    fields = [{"name": each.name, "type": avro(schema, each.type, known)} for each in what.fields]
    return {"type": "record", "name": what.name, "fields": fields}


def avro_file(schema, what):
    """A message or record in Avro's JSON, with all that it holds."""
    text = avro_named(schema, what, {what.name})
    if isinstance(what, Message):
        protocol = "every protocol" if what.of_every_protocol else f"{what.protocol.name} ({what.protocol.number})"
        text = {**text, "doc": f"Message {what.number} of {protocol}, sent by {SENDERS[what.sender]}."}
    return json.dumps(text, indent=1)


def rows(schema):
    """Each message of each protocol, with its number there."""
    for protocol in schema.protocols.values():
        for each in schema.all_of(protocol):
            yield {"protocol": protocol.number, "number": each.number, "name": each.name, "sender": each.sender,
                   "file": each.name + ".avsc"}


def write_schemas(schema, file):
    for what in [schema.named["MessageHeader"], *schema.messages]:
        file(f"schemas/{what.name}.avsc", "docs").put_whole(avro_file(schema, what))
    lines = ",\n".join(" " + json.dumps(each) for each in rows(schema))
    file("schemas/messages.json", "docs").put_whole(f"[\n{lines}\n]")


HEAD = """# The fields of every message

The bodies of the messages of the [wire profile](PROFILE.md), field by field in the order in which they are on the wire, each
written in Avro's binary encoding. [schemas](schemas) has the same for an Avro library: a self-contained schema for each
message and one for the header, and `messages.json` with the protocol, number, name, sender and file of each.

`[T]` is an array of T and `{T}` a map of T. `T?` is null or a T, and `A | B` one of several; both are unions whose branches have
the order given. `Uuid` is a fixed value of sixteen bytes. Moments are longs in microseconds since 1970-01-01 UTC.

Every message begins with its header:

"""

CUT = """A message that is longer than its receiver accepts is cut into parts. Each part has some items of the field in bold, and repeats the
other fields.

"""


def field_text(each, grows=False):
    type = str(each.type).replace("|", " \\| ")
    return f"{'**' if grows else ''}{each.name}{'**' if grows else ''}: {type}"


def fields_text(what):
    grown = what.grows if isinstance(what, Message) and what.sender != "client" else None
    return ", ".join(field_text(each, each is grown) for each in what.fields) or "none"


def message_rows(messages):
    lines = "| number | message | sent by | fields |\n|---|---|---|---|\n"
    for each in messages:
        lines += f"| {each.number} | [{each.name}](schemas/{each.name}.avsc) | {SENDERS[each.sender]} | {fields_text(each)} |\n"
    return lines + "\n"


def write_message_list(schema, file):
    text = HEAD + "| field | type |\n|---|---|\n"
    text += "".join(f"| {each.name} | {each.type} |\n" for each in schema.named["MessageHeader"].fields) + "\n" + CUT
    for protocol in schema.protocols.values():
        text += f"## {protocol.name} ({protocol.number})\n\n" + message_rows(schema.own(protocol))
    text += "## Every protocol\n\n" + message_rows(schema.common)
    text += "## Records\n\n| record | fields |\n|---|---|\n"
    enums = [each for each in schema.types if isinstance(each, Enumeration)]
    for each in schema.types:
        if each not in enums and each.name != "MessageHeader":
            text += f"| {each.name} | {fields_text(each)} |\n"
    text += "\n## Enumerations\n\nA symbol is on the wire as its number, here from 0 on.\n\n| enumeration | symbols |\n|---|---|\n"
    text += "".join(f"| {each.name} | {', '.join(f'{at} {name}' for at, name in enumerate(each.symbols))} |\n" for each in enums)
    file("MESSAGES.md", "docs").put_whole(text)


def write_docs(schema, file):
    write_schemas(schema, file)
    write_message_list(schema, file)
