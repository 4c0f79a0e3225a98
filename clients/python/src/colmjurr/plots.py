"""Logs as drillers read them: tracks side by side, time or depth down the page. This needs matplotlib."""
from __future__ import annotations

from typing import Any, Optional, Sequence

from .arrays_of_numbers import numpy
from .errors import ValueRefused
from .points import Points

# A curve is broken where points are more than so many times their usual step apart.
BREAK = 10


def plot_log(tracks: Sequence[Points], *, depth: Optional[Points] = None, title: str = "") -> Any:
    """A matplotlib `Figure` with a track for each of `tracks`, and time down the page, the newest at the bottom. `depth` puts the points of
    a depth channel on the axis instead of time: each value is drawn at the last depth at or before its time.

    Raises `ValueRefused` if the values of a channel are not numbers, and `ImportError` if matplotlib is not installed."""
    from matplotlib.figure import Figure

    for points in [*tracks, *([depth] if depth is not None else [])]:
        if points.kind in ("string", "bytes"):
            raise ValueRefused(f"the values of {points.name} are not numbers: {points.kind}")
    figure = Figure(figsize=(2.4 * max(1, len(tracks)) + 1.2, 9), layout="constrained")
    axes = figure.subplots(1, max(1, len(tracks)), sharey=True, squeeze=False)[0]
    for track, axis in zip(tracks, axes):
        down, values = _line(track, depth)
        axis.plot(values, down, linewidth=0.8)
        axis.set_xlabel(f"{track.name}{' [' + track.uom + ']' if track.uom else ''}")
        axis.xaxis.set_label_position("top")
        axis.xaxis.tick_top()
        axis.grid(True, linewidth=0.3)
    axes[0].invert_yaxis()
    axes[0].set_ylabel(f"{depth.name}{' [' + depth.uom + ']' if depth.uom else ''}" if depth is not None else "time (UTC)")
    if title:
        figure.suptitle(title)
    return figure


def _line(track: Points, depth: Optional[Points]) -> tuple[Any, Any]:
    """What is drawn down the page and what across, with a break where points are missing."""
    values = numpy.asarray(track.plain_values(), dtype=float)
    indexes = numpy.asarray(track.indexes)
    down: Any = indexes.view("datetime64[us]")
    if depth is not None:
        down = by_depth(indexes, depth)
    if len(indexes) < 3:
        return down, values
    steps = numpy.diff(indexes)
    gaps = numpy.flatnonzero(steps > BREAK * numpy.median(steps)) + 1
    return numpy.insert(down, gaps, down[gaps]), numpy.insert(values, gaps, numpy.nan)


def by_depth(indexes: Any, depth: Points) -> Any:
    """The last depth at each index, in the depth's unit; NaN before the first one."""
    known = numpy.asarray(depth.plain_values(), dtype=float)
    places = numpy.searchsorted(numpy.asarray(depth.indexes), indexes, side="right") - 1
    return numpy.where(places >= 0, known[numpy.maximum(places, 0)] if len(known) else numpy.nan, numpy.nan)
