#!/usr/bin/env python3
"""Sessions with few ids left, and what they send. `check_server.py` takes them into the cases of the program `check_server`."""
from session_cases import Script
from sessions import CLOSED, ID_LIMIT, IDS_SPENT, Session, Store

ENDS = {CLOSED: "Closed", IDS_SPENT: "IdsSpent"}


def messages(close):
    """What a client says: four messages with six answers, or fewer before it closes."""
    script = Script()
    rig = script.client()
    rig.open(1)
    if close:
        rig.close(1)
    rig.ping(1, flags=0x12)
    rig.ping(1, flags=0x12)
    rig.ping(1)
    return [data for _, _, _, data in script.frames]


def pings():
    """What a client says that asks for no session: each ping is refused by one answer."""
    script = Script()
    rig = script.client()
    for _ in range(3):
        rig.ping(1)
    return [data for _, _, _, data in script.frames]


def cases():
    """Pairs of a line of the program's input and what is printed of it."""
    for first, said in [(ID_LIMIT - less, messages(False)) for less in (1, 3, 5, 7, 9, 11, 13)] + [(1, messages(True)), (ID_LIMIT - 1, pings()), (ID_LIMIT - 3, pings())]:
        answers = []
        session = Session(Store(2), (), 1, first)
        for data in said:
            answers += [message.hex().upper() for message in session.take(1, data)]
            answers += [] if session.end is None else ["ended " + ENDS[session.end]]
        line = " ".join(["ids", str(first), *(data.hex().upper() for data in said)])
        yield line, "".join(answer + "\n" for answer in answers)
