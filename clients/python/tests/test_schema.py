"""The schema of the package compared with that of the reader from outside, and with the schema files of docs/schemas."""
import json
import unittest

from support import ROOT
import wire
from colmjurr import schema

SCHEMAS = ROOT / "docs" / "schemas"


def text_of(node, known):
    """A type of an Avro schema in the package's notation; the named types in it are noted."""
    if isinstance(node, list):
        parts = [text_of(each, known) for each in node]
        return f"{parts[1]}?" if len(parts) == 2 and parts[0] == "null" else "|".join(parts)
    if isinstance(node, str):
        return node
    match node["type"]:
        case "array":
            return f"[{text_of(node['items'], known)}]"
        case "map":
            return f"{{{text_of(node['values'], known)}}}"
        case "record":
            known[node["name"]] = tuple((field["name"], text_of(field["type"], known)) for field in node["fields"])
        case "enum":
            known[node["name"]] = tuple(node["symbols"])
        case "fixed":
            known[node["name"]] = node["size"]
        case leaf:
            return leaf
    return node["name"]


def compare(case, bodies, known):
    """Compares bodies by protocol, number and sender, and the named types in them, with the package's tables."""
    rows = {place: row for place, row in schema.MESSAGES.items()}
    rows.update({(protocol, number): row for protocol in schema.PROTOCOLS for number, row in schema.COMMON.items()})
    wanted = {(*place, sender): (name, fields) for place, (name, senders, fields) in rows.items() for sender in ("CS" if senders == "B" else senders)}
    case.assertEqual(bodies, wanted)
    tables = {**schema.RECORDS, **schema.ENUMS, **schema.FIXED}
    case.assertEqual(known, {name: tables[name] for name in known})
    case.assertEqual(set(tables) - set(known), set())


class Schema(unittest.TestCase):
    def test_beside_the_reader_from_outside(self):
        known, bodies = {}, {}
        for place, body in wire.BODIES.items():
            text_of(wire.avro_schema(body, set()), known)
            bodies[place] = body.name, known.pop(body.name)
        text_of(wire.avro_schema(wire.HEADER, set()), known)
        compare(self, bodies, known)
        self.assertEqual(schema.PROTOCOLS, wire.PROTOCOLS)

    def test_beside_the_schema_files(self):
        if not SCHEMAS.is_dir():
            self.skipTest("no docs/schemas")
        known, bodies = {}, {}
        for row in json.loads((SCHEMAS / "messages.json").read_text()):
            text_of(json.loads((SCHEMAS / row["file"]).read_text()), known)
            for sender in {"client": "C", "server": "S", "both": "CS"}[row["sender"]]:
                bodies[row["protocol"], row["number"], sender] = row["name"], known[row["name"]]
        for name, _ in bodies.values():
            known.pop(name, None)
        text_of(json.loads((SCHEMAS / "MessageHeader.avsc").read_text()), known)
        compare(self, bodies, known)

    def test_what_goes_on_from_part_to_part(self):
        tables = {name: dict(fields) for name, _, fields in [*schema.MESSAGES.values(), *schema.COMMON.values()]}
        for name, field in schema.GROWING.items():
            self.assertIn(tables[name][field][0], "[{")


if __name__ == "__main__":
    unittest.main()
