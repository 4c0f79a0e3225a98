#!/usr/bin/env python3
"""Messages with objects and chunks of their data, and what a joiner makes of each.

    join_samples.py capture     the capture whose messages the program `check_frames` joins
    join_samples.py answer      what it prints

The joiner here keeps whole messages as dicts, and looks through all objects for each chunk.
"""

import copy
import random
import sys

import wire
from message_samples import debug_message

DATA_LIMIT = 67_108_864
PUT, REPLY, CHUNK = (4, 2, "C"), (4, 4, "S"), (4, 8, "C")
OTHERS = [(4, 1, "C"), (4, 9, "S"), (0, 8, "C"), (24, 1, "C"), (18, 3, "C")]


# --- the joiner ------------------------------------------------------------------------------------------------------


class Refused(Exception):
    pass


NO_BLOB = "no message waits for this chunk"
WRONG_BLOB = "the blob is not an awaited one, or not of one object alone"
INTERLEAVED = "another blob or message is not whole yet"
TOO_LONG = "the data pass the limit"


class Joiner:
    def __init__(self):
        self.empty()

    def empty(self):
        self.message = self.correlation = self.begun = None

    def objects(self):
        return list(self.message[2]["dataObjects"].values())

    def add(self, header, body, value):
        """The message that is whole, or nothing where chunks are awaited."""
        try:
            match header["protocol"], body.name:
                case 4, "PutDataObjects":
                    return self.begin(header, body, value, header["messageId"])
                case 4, "GetDataObjectsResponse":
                    return self.begin(header, body, value, header["correlationId"])
                case 4, "Chunk":
                    return self.feed(header, value)
            return header, body, value
        except Refused:
            self.empty()
            raise

    def begin(self, header, body, value, correlation):
        objects = list(value["dataObjects"].values())
        ids = [each["blobId"][1] for each in objects if each["blobId"][0] == 1]
        if len(set(ids)) < len(ids) or any(each["blobId"][0] == 1 and each["data"] for each in objects):
            raise Refused(WRONG_BLOB)
        if self.message is not None:
            raise Refused(INTERLEAVED)
        if sum(len(each["data"]) for each in objects) > DATA_LIMIT:
            raise Refused(TOO_LONG)
        if not ids:
            return header, body, value
        self.message, self.correlation = (header, body, copy.deepcopy(value)), correlation
        return None

    def feed(self, header, value):
        if self.message is None:
            raise Refused(NO_BLOB)
        awaited = [each for each in self.objects() if each["blobId"] == (1, value["blobId"])]
        if header["correlationId"] != self.correlation or not awaited:
            raise Refused(WRONG_BLOB)
        if self.begun not in (None, value["blobId"]):
            raise Refused(INTERLEAVED)
        if sum(len(each["data"]) for each in self.objects()) + len(value["data"]) > DATA_LIMIT:
            raise Refused(TOO_LONG)
        awaited[0]["data"] += value["data"]
        self.begun = value["blobId"]
        if value["final"]:
            awaited[0]["blobId"], self.begun = (0, None), None
        if any(each["blobId"][0] == 1 for each in self.objects()):
            return None
        whole = self.message
        self.empty()
        return whole


# --- the messages ------------------------------------------------------------------------------------------------------


def blob(number):
    return bytes([0] * 15 + [number])


def an_object(name, data=b"", blob_id=None):
    return {
        "resource": {
            "uri": f"eml:///witsml21.Log({name})", "alternateUris": [], "name": name, "sourceCount": (0, None),
            "targetCount": (1, len(data)), "lastChanged": 1, "storeLastWrite": 2, "storeCreated": 3, "activeStatus": 1,
            "customData": {},
        },
        "format": "xml",
        "blobId": (0, None) if blob_id is None else (1, blob_id),
        "data": data,
    }


class Script:
    """Messages in their order, each under the next id of its side."""

    def __init__(self):
        self.frames, self.number = [], 0

    def send(self, key, correlation, value):
        self.number += 2
        header = {"protocol": key[0], "messageType": key[1], "correlationId": correlation, "messageId": self.number,
                  "messageFlags": 2}
        self.frames.append((1 if key[2] == "C" else 17, wire.write_message(header, wire.BODIES[key], value)))
        return self.number

    def put(self, **objects):
        return self.send(PUT, 0, {"dataObjects": objects, "pruneContainedObjects": self.number % 4 == 0})

    def reply(self, correlation, **objects):
        self.send(REPLY, correlation, {"dataObjects": objects})

    def chunk(self, correlation, number, data, last, sender="C"):
        self.send((4, 8, sender), correlation, {"blobId": blob(number), "data": data, "final": last})

    def other(self, key):
        fields = {
            (4, 1, "C"): {"uris": {"a": "eml:///"}, "format": "xml"}, (4, 9, "S"): {"success": {}},
            (0, 8, "C"): {"currentDateTime": 5}, (24, 1, "C"): {"storeLastWriteFilter": (0, None)},
            (18, 3, "C"): {"transactionUuid": blob(9)},
        }
        self.send(key, 0, fields[key])


def cases(script):
    """One for each rule, by hand."""
    # whole at once, with and without data
    script.put(a=an_object("a"), b=an_object("b", b"data"))
    script.reply(7)
    # two blobs, one after the other, in the order of their chunks and not of their keys; other messages come between
    put = script.put(a=an_object("a", blob_id=blob(1)), b=an_object("b", b"in place"), c=an_object("c", blob_id=blob(2)))
    script.chunk(put, 2, b"one, ", False)
    for key in OTHERS:
        script.other(key)
    script.chunk(put, 2, b"", False)
    script.chunk(put, 2, b"two", True)
    script.chunk(put, 1, b"", True)
    # a reply's chunks have the reply's correlation
    script.reply(11, a=an_object("a", blob_id=blob(3)))
    script.chunk(11, 3, b"all of it", True, "S")
    # another blob's chunk, and nothing is awaited then
    put = script.put(a=an_object("a", blob_id=blob(4)))
    script.chunk(put, 5, b"x", True)
    script.chunk(put, 4, b"x", True)
    script.put(a=an_object("a"))
    # another correlation's
    put = script.put(a=an_object("a", blob_id=blob(4)))
    script.chunk(put - 2, 4, b"x", True)
    # one that is finished
    put = script.put(a=an_object("a", blob_id=blob(4)), b=an_object("b", blob_id=blob(5)))
    script.chunk(put, 4, b"x", True)
    script.chunk(put, 4, b"x", True)
    # one that is awaited, while another is begun
    put = script.put(a=an_object("a", blob_id=blob(4)), b=an_object("b", blob_id=blob(5)))
    script.chunk(put, 4, b"x", False)
    script.chunk(put, 5, b"x", True)
    # a message with objects, while another is awaited: with blobs or without; one that is refused by itself comes before that
    for objects in [{}, {"a": an_object("a")}, {"a": an_object("a", blob_id=blob(1))}, {"a": an_object("a", b"x", blob(1))}]:
        put = script.put(a=an_object("a", blob_id=blob(4)))
        script.put(**objects)
        script.chunk(put, 4, b"x", True)
        script.put(a=an_object("a", blob_id=blob(4)))
        script.reply(put, **objects)
    # data beside a blob's identity, and one blob for two objects
    script.put(a=an_object("a", b"x", blob(1)))
    script.put(a=an_object("a", blob_id=blob(1)), b=an_object("b", b"x"), c=an_object("c", blob_id=blob(1)))
    script.reply(3, a=an_object("a", blob_id=blob(1)), b=an_object("b", blob_id=blob(1)))


def drawn(script, draw):
    """Some puts and replies with their chunks, now and then not as they should be."""
    for _ in range(150):
        names = draw.sample("abcdef", draw.randrange(6))
        numbers = draw.sample(range(1, 9), 8) if draw.random() < 0.9 else [1] * 8
        objects, left = {}, {}
        for name, number in zip(names, numbers):
            if draw.random() < 0.6:
                objects[name] = an_object(name, b"" if draw.random() < 0.97 else b"!", blob(number))
                left[number] = draw.randrange(4)
            else:
                objects[name] = an_object(name, draw.randbytes(draw.randrange(6)))
        correlation = draw.randrange(1, 50)
        if draw.random() < 0.5:
            correlation = script.put(**objects)
        else:
            script.reply(correlation, **objects)
        order = list(left)
        draw.shuffle(order)
        for number in order:
            for place in range(left[number] + 1):
                turn = draw.random()
                if turn < 0.02:
                    script.put(a=an_object("a"))
                elif turn < 0.04:
                    script.chunk(correlation, draw.randrange(1, 9), b"?", draw.random() < 0.5)
                elif turn < 0.12:
                    script.other(draw.choice(OTHERS))
                sender = draw.choice("CS")
                script.chunk(correlation + (draw.random() < 0.02), number, draw.randbytes(draw.randrange(5)), place == left[number], sender)


def script():
    made = Script()
    cases(made)
    drawn(made, random.Random(5))
    return made.frames


def capture():
    return wire.MAGIC + b"".join(wire.write_frame(kind, 1, 0, data) for kind, data in script())


def answer():
    return "".join(line + "\n" for line in answers())


def answers():
    joiner = Joiner()
    for kind, data in script():
        header, body, value = wire.read_message(data, wire.SENDERS[kind])
        try:
            whole = joiner.add(header, body, value)
            yield "more" if whole is None else "whole " + debug_message(*whole)
        except Refused as refused:
            yield f"refused: {refused}"
        yield "awaits nothing" if joiner.message is None else f"awaits {joiner.correlation}"


def main():
    match sys.argv[1]:
        case "capture":
            sys.stdout.buffer.write(capture())
        case "answer":
            sys.stdout.write(answer())


if __name__ == "__main__":
    main()
