#!/usr/bin/env python3
"""Writes well_log.ipynb: a notebook that loads a well's log, reads it back and plots it.

    python3 make_notebook.py            writes the notebook
    python3 make_notebook.py --check    compares, and exits with 1 if it differs

The notebook takes the server's address from COLMJURR_URL, and the two channels, of kind double, from COLMJURR_CHANNELS.
"""
import json
import sys
from pathlib import Path

TARGET = Path(__file__).with_name("well_log.ipynb")
CELLS = [
    ("markdown", """# A well's log

This notebook stores a well, loads two of its channels, reads them back as a table and plots them, time down the page. It needs a server
with two channels of kind `double`; their URIs are in its configuration."""),
    ("code", """import os

import numpy as np
import pandas as pd

import colmjurr

URL = os.environ.get("COLMJURR_URL", "ws://127.0.0.1:8080/")
CHANNELS = os.environ.get(
    "COLMJURR_CHANNELS",
    "eml:///witsml21.Channel(00000000-0000-0000-0000-000000000001) eml:///witsml21.Channel(00000000-0000-0000-0000-000000000002)").split()
store = colmjurr.connect(URL)
store.info"""),
    ("markdown", "An object is stored with its data: here a well, in a dataspace of its own."),
    ("code", """store.put_space("north field")
WELL = colmjurr.object_uri("witsml21.Well", "0c2d5fe6-3e8a-4d2c-9a55-1f0a5c8c4a10", "north field")
store.put(WELL, b"<Well><Citation><Title>N-7</Title></Citation></Well>", name="N-7")
store.get(WELL).name, [space.path for space in store.spaces()]"""),
    ("markdown", """Four hours of a rate of penetration and a hook load, one point a second. A channel's points rise in time, so the points of an
earlier run are removed first."""),
    ("code", """times = pd.date_range("2026-12-01T06:00", periods=4 * 3600, freq="s", tz="UTC")
draw = np.random.default_rng(7)
rate = 18 + 6 * np.sin(np.arange(len(times)) / 900) + draw.normal(0, 0.8, len(times))
load = 140 + np.arange(len(times)) / 400 + draw.normal(0, 1.5, len(times))
rop, hook = store.channels(CHANNELS)
for channel, values in ((rop, rate), (hook, load)):
    channel.truncate("1970-01-01")
    channel.load(pd.DataFrame({channel.name: values}, index=times))
rop.refresh(); rop.first, rop.last"""),
    ("markdown", "A range as a table over time in UTC."),
    ("code", """table = rop.range("2026-12-01T07:00", "2026-12-01T07:59:59").to_pandas()
assert len(table) == 3600
table.describe()"""),
    ("markdown", "A correction: two minutes of the hook load were wrong, and are replaced by one point."),
    ("code", """hook.replace("2026-12-01T08:00", "2026-12-01T08:02", [colmjurr.index_of("2026-12-01T08:01")], [150.0])
corrected = hook.range("2026-12-01T07:59:58", "2026-12-01T08:02:02").to_pandas()
assert len(corrected) == 5
corrected"""),
    ("markdown", "The log."),
    ("code", """from colmjurr.plots import plot_log

tracks = [channel.range() for channel in (rop, hook)]
assert [len(track) for track in tracks] == [4 * 3600, 4 * 3600 - 120]
plot_log(tracks, title="N-7")"""),
    ("code", "store.close()"),
]


def notebook():
    cells = []
    for place, (kind, text) in enumerate(CELLS):
        cell = {"cell_type": kind, "id": f"cell-{place}", "metadata": {}, "source": text.splitlines(keepends=True)}
        if kind == "code":
            cell.update(execution_count=None, outputs=[])
        cells.append(cell)
    kernel = {"display_name": "Python 3", "language": "python", "name": "python3"}
    return json.dumps({"cells": cells, "metadata": {"kernelspec": kernel}, "nbformat": 4, "nbformat_minor": 5}, indent=1) + "\n"


def main():
    if sys.argv[1:] == ["--check"]:
        if not TARGET.exists() or TARGET.read_text() != notebook():
            sys.exit(f"{TARGET} is not what make_notebook.py writes")
    else:
        TARGET.write_text(notebook())


if __name__ == "__main__":
    main()
