#!/usr/bin/env python3
"""The places of messages' bodies in the schema's table. `check_frames.py` takes them into the program `check_frames`.

The named nodes stand in the order of `NAMED`, and the messages after them. An array, a map or a union stands just before the first named
node that holds it, each once, and what it holds before it.
"""
from wire import BODIES, COMMON_MESSAGES, MESSAGES, TYPES, Array, Map, Record, Union, rows

# the order of the named nodes before the messages
NAMED = """
null boolean int long float double bytes string Uuid Version ArrayOfBoolean ArrayOfNullableBoolean ArrayOfInt ArrayOfNullableInt ArrayOfLong
ArrayOfNullableLong ArrayOfFloat ArrayOfDouble ArrayOfString ArrayOfBytes AnyArray AnySubarray AnySparseArray DataValue DataAttribute ErrorInfo
SupportedProtocol SupportedDataObject Dataspace ActiveStatusKind Resource DataObject PutResponse DataArrayIdentifier AnyArrayType
AnyLogicalArrayType DataArray DataArrayMetadata GetDataSubarraysType PutDataArraysType PutDataSubarraysType PutUninitializedDataArrayType
PassDirection PassIndexedDepth IndexValue IndexInterval ChannelIndexKind IndexDirection ChannelDataKind IndexMetadataRecord
AttributeMetadataRecord ChannelMetadataRecord DataItem ChannelSubscribeInfo ChannelRangeInfo TruncateInfo OpenChannelInfo MessageHeader
"""


def name_of(node):
    """A node's name, or how it is written, if it has none."""
    match node:
        case Array(item):
            return f"[{name_of(item)}]"
        case Map(item):
            return "{" + name_of(item) + "}"
        case Union(branches):
            return "|".join(name_of(branch) for branch in branches)
    return node.name


def parts_of(node):
    match node:
        case Array(item) | Map(item):
            return [item]
        case Union(branches):
            return branches
        case Record(_, fields):
            return [part for _, part in fields]
    return []


class Places(dict):
    """The place of each node by its name."""

    def put(self, name, node):
        for part in parts_of(node):
            if isinstance(part, (Array, Map, Union)) and name_of(part) not in self:
                self.put(name_of(part), part)
        self[name] = len(self)


def messages():
    """The messages, each by its name, its protocol's number and its own, in their order; those of every protocol follow the first one's."""
    own = [(name, int(protocol), int(kind)) for protocol, kind, name, *_ in rows(MESSAGES)]
    common = [(name, 0, int(kind)) for kind, name, *_ in rows(COMMON_MESSAGES)]
    first = [each for each in own if each[1] == 0]
    return first + common + own[len(first):]


def answer():
    """What is printed: each message's protocol, its number, its sender and the place of its body."""
    places = Places()
    for name in NAMED.split():
        places.put(name, TYPES[name])
    shared = {}
    for name, protocol, kind in messages():
        body = next(BODIES[protocol, kind, sender] for sender in "CS" if (protocol, kind, sender) in BODIES)
        places.put(name, body)
        shared[kind if kind >= 1000 else (protocol, kind)] = places[name]
    lines = ""
    for protocol, kind, sender in sorted(BODIES):
        lines += f"{protocol} {kind} {sender} {shared[kind if kind >= 1000 else (protocol, kind)]}\n"
    return lines
