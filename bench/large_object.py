#!/usr/bin/env python3
"""Puts and gets the largest object that is taken, by chunks, and one that is a byte longer.

    python3 large_object.py ETPTOOL

ETPTOOL is the built tool. It answers a capture in which a client puts an object of 67,108,864 bytes in chunks of 8,388,608, gets it,
and then puts one whose last chunk is a byte too long, which is refused. The answers are compared with those written out here. Memory is
counted by Debian's `time`.
"""
import subprocess
import sys
import tempfile
import time
from pathlib import Path

sys.path.insert(0, str(Path(__file__).resolve().parent.parent / "outside"))

from row_captures import CONFIGS, PUT, Script, blob_id, data_object, put_objects, well
from wire import MAGIC

PIECE = 8_388_608
PIECES = 8
BLOB = b"\1" * 16


def piece(number):
    return bytes((number + place * 7) % 251 for place in range(4096)) * (PIECE // 4096)


def put(script, number, last):
    """Puts an object by chunks, the last of which is this, and answers the ids of the put and of the last chunk."""
    asked = script.say(4, 2, put_objects({"k": data_object(number, b"", blob=BLOB)}))
    for place in range(PIECES - 1):
        script.say(4, 8, dict(blobId=BLOB, data=piece(place), final=False), flags=0, correlation=asked)
    return asked, script.say(4, 8, dict(blobId=BLOB, data=last, final=True), flags=0, correlation=asked)


def script():
    told = Script()
    told.open([4])
    asked, _ = put(told, 1, piece(PIECES - 1))
    moment = told.moment
    told.hear(4, 9, asked, dict(success={"k": PUT}))
    asked = told.say(4, 1, dict(uris={"k": well(1)}, format=""))
    told.hear(4, 4, asked, dict(dataObjects={"k": data_object(1, b"", blob=blob_id(1, 1), written=moment, created=moment)}), 0)
    for place in range(PIECES):
        last = place == PIECES - 1
        told.hear(4, 8, asked, dict(blobId=blob_id(1, 1), data=piece(place), final=last), 2 if last else 0)
    _, last = put(told, 2, piece(PIECES - 1) + b"x")
    told.refuse(4, last, 17)
    asked = told.say(4, 1, dict(uris={"k": well(2)}, format=""))
    told.refuse_keys(4, asked, {"k": 11})
    return told


def main():
    told = script()
    with tempfile.TemporaryDirectory() as folder:
        config = Path(folder, "config.toml")
        config.write_text(CONFIGS["two_channels"])
        # What the system counts for a child of this program is at least what this program has, so another one counts.
        counted = Path(folder, "counted")
        command = ["/usr/bin/time", "-o", str(counted), "-f", "%M", sys.argv[1], "replay", str(config)]
        begun = time.perf_counter()
        run = subprocess.run(command, input=MAGIC + b"".join(told.said), capture_output=True)
        seconds = time.perf_counter() - begun
        peak = int(counted.read_text()) // 1024
    assert run.returncode == 0, run.stderr
    assert run.stdout == MAGIC + b"".join(told.heard), "the answers are others"
    print(f"{PIECE * PIECES} bytes put and got, and one byte more refused: {seconds:.1f} s, {peak} MiB at most")


if __name__ == "__main__":
    main()
