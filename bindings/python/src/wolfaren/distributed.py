"""Counts many captures on the workers of a Dask cluster, and reads them into one table."""

from __future__ import annotations

import os
import uuid
from collections.abc import Iterable
from typing import TYPE_CHECKING, NamedTuple

from . import _table
from ._captures import OnError, check_on_error
from ._optional import import_for
from ._statistics import CaptureError, Statistics, statistics_of

if TYPE_CHECKING:
    from dask.dataframe import DataFrame
    from distributed import Client

# How many results one task merges.
_MERGED = 16


class Counted(NamedTuple):
    """Statistics of many captures. Threads may share them, after a fork parent and child each have their own, and they can be
    pickled and copied."""

    statistics: Statistics
    damaged: dict[str, str]
    """Why each capture that can't be read to its end can't, by its path. The packets up to there are counted."""


def _names(paths: Iterable[str | os.PathLike[str]]) -> list[str]:
    """Returns the paths as texts. Raises `TypeError` for one path instead of several."""
    if isinstance(paths, (str, bytes, os.PathLike)):
        raise TypeError(f"paths is a list of paths, such as [{paths!r}]")
    return [os.fspath(it) for it in paths]


def _count(path: str) -> Counted:
    try:
        return Counted(statistics_of(path), {})
    except CaptureError as error:
        return Counted(error.statistics or Statistics(), {path: error.reason})


def _merge(parts: list[Counted]) -> Counted:
    total, damaged = Statistics(), dict[str, str]()
    for statistics, reasons in parts:
        total += statistics
        damaged |= reasons
    return Counted(total, damaged)


def statistics_of_many(paths: Iterable[str | os.PathLike[str]], client: Client) -> Counted:
    """Counts the packets of many captures, one task each, and merges the results in a tree of tasks.

    The workers read the files, so each path must mean the same file to all of them, and this package must be installed
    there. What to do if a worker is lost is left to Dask: by default, its tasks run again elsewhere. A capture that can't
    be read to its end is no error: it is reported in `damaged`.
    """
    parts = client.map(_count, _names(paths), pure=False)
    while len(parts) > 1:
        parts = [client.submit(_merge, parts[i:i + _MERGED], pure=False) for i in range(0, len(parts), _MERGED)]
    counted: Counted = client.gather(parts[0]) if parts else _merge([])
    return counted


def table(paths: Iterable[str | os.PathLike[str]], columns: Iterable[str] | None = None, on_error: OnError = "warn") -> DataFrame:
    """Returns a Dask dataframe of the IP packets of many captures: a partition for each, which is its `wolfaren.table`.

    A capture is read when its partition is computed, on the workers if there is a cluster: each path must then mean the
    same file to all of them, and this package and pandas must be installed there. In each partition, the index starts at
    0. Without paths, there is one partition without packets.

    The partition of a capture that can't be read to its end has the packets that are there, and the worker warns of it with
    a `CaptureWarning`. With `on_error="raise"`, computing it raises the `CaptureError` that `wolfaren.table` raises.

    Raises `ValueError` for a column that `wolfaren.table` doesn't have, `TypeError` for one path instead of several, and
    `ImportError` if Dask or pandas isn't installed.
    """
    check_on_error(on_error)
    import_for("wolfaren.distributed.table", "pandas")
    dataframe = import_for("wolfaren.distributed.table", "dask.dataframe")
    empty = _table.empty_table(columns)
    names = _names(paths)
    if not names:
        frame: DataFrame = dataframe.from_pandas(empty, npartitions=1)
        return frame
    # the name is new each time, so that no result is kept for a file that has changed
    frame = dataframe.from_map(_table.table, names, columns=[*empty.columns], on_error=on_error, meta=empty,
                               token=uuid.uuid4().hex)
    return frame
