"""Short sessions as they were recorded, in the folder `short_sessions`, with what the server of `transactions.py` answers.

`check_tool.py` takes them as cases.
"""
import pathlib

import row_captures
import transactions
import wire

FOLDER = pathlib.Path(__file__).parent / "short_sessions"
# the limits of journals that are not the default
JOURNALS = {"journal_of_three": 3}
DEFAULT_JOURNAL, DEFAULT_LAG = 4_194_304, 65_536


def channel(number):
    return dict(uri=f"eml:///witsml21.Channel(00000000-0000-0000-0000-00000000000{number})", name=f"c{number}", kind="long", uom="")


def config_of(name):
    """The name of a configuration, and its text."""
    if name not in JOURNALS:
        return "two_channels", row_captures.CONFIGS["two_channels"]
    return name, row_captures.HEAD + f"journal = {JOURNALS[name]}\n" + row_captures.CHANNELS


def cases():
    """The name of each capture, its configuration with its name, the capture, and what is written."""
    for path in sorted(FOLDER.glob("*.cap")):
        bytes_in, written = path.read_bytes(), wire.MAGIC
        server = transactions.Server([channel(0), channel(1)], DEFAULT_LAG, JOURNALS.get(path.stem, DEFAULT_JOURNAL), None)
        for frame in wire.read_frames(bytes_in):
            written += b"".join(server.play(frame.kind, frame.tag, frame.moment, frame.data))
        yield path.stem, config_of(path.stem), bytes_in, written
