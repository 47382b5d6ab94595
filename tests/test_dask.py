"""crsdesk.dask against the command `crsdesk group`.

Over a catalogue of 200,000 lines, some of them blank or refused, all answers are held line for line against it: bags cut
into 1, 7 and 1,000 partitions and a dataframe's column, at both levels, by a scheduler and four worker processes, of
which one is killed in the middle of a run. Small collections are tried by the threads of this process. The blocks of
docs/CLUSTER.md are run too.
"""
from __future__ import annotations

import doctest
import io
import logging
import os
import pathlib
import pickle
import random
import signal
import subprocess
import sys
import threading
import time
from typing import Any, Callable, Dict, Iterator, List, NamedTuple, Optional, Set, Tuple

import documents
import pytest
from support import CANONICAL_HEIGHT, HEIGHT, HERE, NOTED, ROOT, TWIN

for package in ("dask.bag", "dask.dataframe", "distributed"):
    pytest.importorskip(package)

import crsdesk
import crsdesk.dask
import dask
import dask.bag
import dask.dataframe
import numpy
import pandas
from crsdesk import _batch, _partitions
from crsdesk.__main__ import lines_of
from crsdesk.dask import Standing, canon, groups, lines

pytestmark = pytest.mark.xdist_group("dask")
LINES = 200_000
WORKERS = 4
SECONDS = 600
# Lines that are put between those of the large catalogue: each so many lines, one of these.
EACH = 97
BETWEEN = [b"", b" \t ", b"EPSG:4326", b'GEOGCS["x"]', b"\xff", b"caf\xc3\xa9", HEIGHT.encode()[:-1]]


def large_catalogue(lines: int) -> bytes:
    """The texts of tests/big_catalogue.py, four spellings of each CRS, with others between them."""
    words = [sys.executable, HERE / "big_catalogue.py", lines // 4, 4]
    made = subprocess.run([str(it) for it in words], stdout=subprocess.PIPE, check=True).stdout.split(b"\n")[:lines]
    for place in range(0, lines, EACH):
        made[place] = BETWEEN[place // EACH % len(BETWEEN)]
    return b"".join(line + b"\n" for line in made)


def by_command(program: pathlib.Path, catalogue: bytes, level: str) -> List[Standing]:
    """What the command says of each line."""
    words = [str(program), "group", "--level", level]
    done = subprocess.run(words, input=catalogue, stdout=subprocess.PIPE, check=False, timeout=SECONDS)
    found: Dict[int, Standing] = {}
    for line in done.stdout.decode().split("\n")[:-1]:
        head, _, rest = line.partition(": ")
        what, number = head.split()
        if what == "group":
            found |= {int(it): Standing(int(number), None) for it in rest.split()}
        else:
            found[int(number)] = Standing(None, rest)
    return [found.get(number, Standing(None, None)) for number in range(1, catalogue.count(b"\n") + 1)]


def read(path: str, begin: int, end: int) -> List[bytes]:
    """The lines of a part of a file."""
    with open(path, "rb") as file:
        file.seek(begin)
        return file.read(end - begin).split(b"\n")[:-1]


def read_late(path: str, begin: int, end: int, awaited: str) -> List[bytes]:
    """The same, once a file is there."""
    while not os.path.exists(awaited):
        time.sleep(0.02)
    return read(path, begin, end)


def read_column(path: str, begin: int, end: int) -> Any:
    """The same as a column, with the numbers of bytes as its index."""
    lines = read(path, begin, end)
    return pandas.Series(lines, name="wkt", dtype="object", index=range(begin, begin + len(lines)))


def cut(path: pathlib.Path, partitions: int) -> List[Tuple[str, int, int]]:
    """The parts of a file in so many partitions of whole lines; some may be empty."""
    data = path.read_bytes()
    ends = [0]
    for number in range(1, partitions):
        ends.append(max(ends[-1], data.find(b"\n", len(data) * number // partitions) + 1))
    return [(str(path), begin, end) for begin, end in zip(ends, [*ends[1:], len(data)])]


def bag_of(path: pathlib.Path, partitions: int) -> Any:
    return dask.bag.from_delayed([dask.delayed(read)(*it) for it in cut(path, partitions)])


def column_of(path: pathlib.Path, partitions: int) -> Any:
    meta = pandas.Series([], name="wkt", dtype="object")
    return dask.dataframe.from_delayed([dask.delayed(read_column)(*it) for it in cut(path, partitions)], meta=meta)


def standings(frame: Any) -> List[Standing]:
    """The rows of a dataframe's answer."""
    numbers = [None if it is pandas.NA else int(it) for it in frame["group"]]
    return [Standing(number, refusal) for number, refusal in zip(numbers, frame["refusal"])]


def hold_answer(name: str, got: List[Standing], wanted: List[Standing]) -> None:
    wrong = next((number for number, pair in enumerate(zip(got, wanted), 1) if pair[0] != pair[1]), 0)
    assert not wrong, f"{name}: line {wrong}: {got[wrong - 1]}, wanted {wanted[wrong - 1]}"
    assert len(got) == len(wanted), name


def test_document() -> None:
    """The session of docs/CLUSTER.md, before there is a cluster here that its collections would take."""
    blocks = [it for it in documents.blocks_of(ROOT / "docs" / "CLUSTER.md") if it.kind == "pycon"]
    documents.hold_session(blocks, flags=doctest.NORMALIZE_WHITESPACE)


def test_small() -> None:
    """Small collections, by the threads of this process."""
    texts = ["", HEIGHT, NOTED, "EPSG:4326", TWIN, " ", HEIGHT.encode(), crsdesk.Crs(NOTED)]
    refused = "refused 1 BadCharacter at 4"
    wanted = [(None, None), (1, None), (2, None), (None, refused), (1, None), (None, None), (1, None), (2, None)]
    for partitions in range(1, len(texts) + 1):
        bag = dask.bag.from_sequence(texts, npartitions=partitions)
        assert groups(bag).compute(scheduler="threads") == wanted, f"a bag of {partitions}"
        by_definition = groups(bag, "definition", npartitions=3).compute(scheduler="sync")
        assert [it.group for it in by_definition] == [None, 1, 1, None, 1, None, 1, 1], "by definition"
        answers = canon(bag).compute(scheduler="sync")
        assert answers[:5] == [None, CANONICAL_HEIGHT, crsdesk.canon(NOTED), None, CANONICAL_HEIGHT], "canonical texts"
    assert groups(dask.bag.from_sequence([""], npartitions=1)).compute(scheduler="sync") == [(None, None)], "nothing"
    empty = dask.bag.from_delayed([dask.delayed(read)(os.devnull, 0, 0) for _ in range(3)])
    assert groups(empty).compute(scheduler="sync") == [], "no text"


def test_batches() -> None:
    """Many texts in one call are answered as one by one, whatever room there is and however many go together."""
    chance = random.Random(62)
    pool = [HEIGHT, NOTED, TWIN, "", " ", "x[", HEIGHT[:-1], HEIGHT.replace('"H"', '"' + "H" * 3000 + '"')]
    kept = _batch.MOST_BYTES, _batch.ROOM_BY_TEXTS, _batch.LEAST_ROOM
    try:
        for most, by_texts, least in (kept, (1, 2, 1), (400, 0, 1), (5000, 1, 0)):
            _batch.MOST_BYTES, _batch.ROOM_BY_TEXTS, _batch.LEAST_ROOM = most, by_texts, max(least, 1)
            for count in (0, 1, 2, 50):
                texts = [chance.choice(pool).encode() for _ in range(count)]
                for number, level in enumerate(("full", "definition")):
                    wanted = [one_by_one(text, level) for text in texts]
                    found = [it if isinstance(it, bytes) else it.summary for it in _batch.spellings(texts, number)]
                    assert found == wanted, f"{count} texts, {most} bytes, room {least}"
    finally:
        _batch.MOST_BYTES, _batch.ROOM_BY_TEXTS, _batch.LEAST_ROOM = kept


def one_by_one(text: bytes, level: Any) -> Any:
    try:
        return crsdesk.canon(text, level).encode()
    except crsdesk.Refused as refused:
        return refused.summary


def test_rules() -> None:
    """Groups and forms of a bag and of a column under rules."""
    rules = crsdesk.Rules('SAME[VDATUM["D"],VDATUM["E"]]', "UNCOUNTED[crsName]")
    other, foot = HEIGHT.replace('"H"', '"G"').replace('"D"', '"E"'), HEIGHT.replace('"metre",1', '"foot",0.3048')
    texts: List[Any] = [HEIGHT, other, "", foot, "EPSG:4326", crsdesk.Crs(other)]
    bag = dask.bag.from_sequence(texts, npartitions=3)
    column = dask.dataframe.from_pandas(pandas.Series(texts, name="wkt"), npartitions=2)
    answers = groups(bag, rules=rules).compute(scheduler="threads")
    assert [it.group for it in answers] == [1, 1, None, 2, None, 1], "a bag under rules"
    answers = standings(groups(column, "definition", rules=rules).compute(scheduler="sync"))
    assert [it.group for it in answers] == [1, 1, None, 2, None, 1], "a column under rules"
    answers = groups(bag).compute(scheduler="sync")
    assert [it.group for it in answers] == [1, 2, None, 3, None, 2], "the same bag without rules"
    forms = [None if it in ("", "EPSG:4326") else crsdesk.canon(it, rules=rules) for it in texts]
    assert canon(bag, rules=rules).compute(scheduler="sync") == forms, "forms of a bag"
    assert canon(column, "full", rules).compute(scheduler="sync").tolist() == forms, "forms of a column"


def by_catalogue(texts: List[Any]) -> List[Standing]:
    """What one catalogue says of each text."""
    catalogue = crsdesk.Catalogue()
    found = []
    for text in texts:
        try:
            found.append(Standing(catalogue.add(text), None))
        except crsdesk.Refused as refused:
            found.append(Standing(None, refused.summary))
    return found


def test_collisions() -> None:
    """Texts are compared whole, whatever their digests: those of this package, one for all, and three. Collections by
    chance, of texts, bytes and CRSs, in any number of partitions and meetings."""
    chance = random.Random(58)
    pool: List[Any] = [HEIGHT.replace('"H"', f'"{number}"') for number in range(40)]
    pool += ["", " ", "x[", "GEOGCS[", HEIGHT.encode(), crsdesk.Crs(NOTED), bytearray(HEIGHT.encode())]
    kept = _partitions.digests_of
    ways = {
        "its own digests": kept,
        "one digest for all": lambda texts: numpy.full((len(list(texts)), 2), 7, dtype="<u8"),
        "three digests": lambda texts: kept(texts) % numpy.uint64(3) * numpy.array([1, 0], dtype="<u8"),
    }
    for name, way in ways.items():
        _partitions.digests_of = way
        try:
            for _ in range(4):
                texts = [chance.choice(pool) for _ in range(chance.randrange(1, 200))]
                texts = [text + " " * chance.randrange(3) if isinstance(text, str) else text for text in texts]
                wanted = by_catalogue(texts)
                for partitions in (1, 2, 7, 50):
                    bag = dask.bag.from_sequence(texts, npartitions=partitions)
                    for meetings in (None, 1, 3):
                        found = groups(bag, npartitions=meetings).compute(scheduler="sync")
                        assert found == wanted, f"{name}: {len(texts)} in {partitions}, {meetings}"
        finally:
            _partitions.digests_of = kept
    # A partition is a sequence of standings.
    part = _partitions.Standings(numpy.array([1, 0, 2]), {1: "refused"})
    wanted = [Standing(1, None), Standing(None, "refused"), Standing(2, None)]
    assert (list(part), len(part), part[1], part[-1], part[:2]) == (
        wanted,
        3,
        wanted[1],
        wanted[2],
        wanted[:2],
    ), "a partition"
    assert list(pickle.loads(pickle.dumps(part))) == wanted, "a partition is sent"


def test_lines(tmp_path: pathlib.Path) -> None:
    """The lines of files in blocks of any size are those of a catalogue."""
    data = b"a\r\nb\n\nc\rd\r\r\n" + b"x" * 50 + b"\n\xff\nlast\r"
    for number, end in enumerate((data, data + b"\n", b"", b"\n", b"\r\n")):
        path = tmp_path / f"{number}.txt"
        path.write_bytes(end)
        wanted = list(lines_of(io.BytesIO(end)))
        for size in (*range(1, 12), 100):
            found = lines(str(path), blocksize=size).compute(scheduler="sync")
            assert found == wanted, f"lines {number} in blocks of {size}"
    found = lines([f"{tmp_path}/0.txt", f"{tmp_path}/1.txt"], blocksize=7).compute(scheduler="sync")
    assert found == [*lines_of(io.BytesIO(data)), *lines_of(io.BytesIO(data + b"\n"))], "lines of two files"


def test_frames() -> None:
    """Columns: their index, their partitions, missing values, and other types of strings."""
    values = [HEIGHT, None, NOTED, float("nan"), "EPSG:4326", TWIN, pandas.NA, ""]
    frame = pandas.DataFrame({"wkt": values, "other": range(8)}, index=[f"i{n}" for n in range(8)])
    for kind in ("object", "string"):
        table = dask.dataframe.from_pandas(frame.astype({"wkt": kind}), npartitions=3)
        answer = groups(table["wkt"])
        found = answer.compute(scheduler="sync")
        assert found.dtypes.astype(str).tolist() == ["Int64", "object"], f"{kind}: types"
        assert answer.dtypes.tolist() == found.dtypes.tolist(), f"{kind}: types before"
        assert found.index.tolist() == frame.index.tolist(), f"{kind}: index"
        assert answer.divisions == table.divisions, f"{kind}: divisions"
        numbers = [None if it is pandas.NA else it for it in found["group"]]
        assert numbers == [1, None, 2, None, None, 1, None, None], f"{kind}: groups"
        refusals = [None] * 4 + ["refused 1 BadCharacter at 4"] + [None] * 3
        assert found["refusal"].tolist() == refusals, f"{kind}: refusals"
        joined = table.assign(group=answer["group"]).compute(scheduler="sync")
        assert joined["group"].fillna(0).tolist() == [1, 0, 2, 0, 0, 1, 0, 0], f"{kind}: beside the texts"
        texts = canon(table["wkt"], "definition").compute(scheduler="sync")
        assert (texts.name, texts.index.tolist()) == ("wkt", frame.index.tolist()), f"{kind}: canonical texts"
        wanted = [CANONICAL_HEIGHT if it in (1, 2) else None for it in numbers]
        assert texts.tolist() == wanted, f"{kind}: canonical texts"


def test_faults() -> None:
    bag = dask.bag.from_sequence([HEIGHT, 4326], npartitions=2)
    table = dask.dataframe.from_pandas(pandas.DataFrame({"wkt": [HEIGHT]}), npartitions=1)
    calls: List[Callable[..., Any]] = [groups, canon]
    for call in calls:
        for given, level, wanted in (
            ([HEIGHT], "full", "TypeError: a catalogue is a bag of dask or a column of its dataframe, not list"),
            (
                table,
                "full",
                "TypeError: a catalogue is a bag of dask or a column of its dataframe, not DataFrame; take one of its columns",
            ),
            (bag, "Full", "ValueError: no such level: 'Full'; there are 'full' and 'definition'"),
            (bag, "full", "TypeError: a text is str, bytes or Crs, not int"),
        ):
            try:
                found = str(call(given, level).compute(scheduler="sync"))
            except (TypeError, ValueError) as error:
                found = f"{type(error).__name__}: {error}"
            assert found == wanted, f"{call.__name__} of {type(given).__name__}"


def test_texts_stay_with_their_partition() -> None:
    """No task has the texts of two partitions: what goes to another worker is digests, and texts that are compared."""
    graph = dict(groups(dask.bag.from_sequence([HEIGHT] * 600, npartitions=600)).__dask_graph__())
    halves = {key for key in graph if str(key).startswith("own_groups-")}
    counts = [len(halves & set(dask.core.get_dependencies(graph, key))) for key in graph]
    assert len(halves) == 600 and max(counts) == 1 and len(graph) < 50 * 600


class Large(NamedTuple):
    """A client of four worker processes, and a large catalogue with what the command says of it at each level."""

    client: Any
    path: pathlib.Path
    wanted: Dict[str, List[Standing]]


@pytest.fixture(scope="module")
def large(program: pathlib.Path, tmp_path_factory: pytest.TempPathFactory) -> Iterator[Large]:
    from dask.distributed import Client, LocalCluster

    folder = tmp_path_factory.mktemp("dask")
    path = folder / "catalogue.txt"
    path.write_bytes(large_catalogue(LINES))
    wanted = {level: by_command(program, path.read_bytes(), level) for level in ("full", "definition")}
    settings: Dict[str, Any] = {"n_workers": WORKERS, "threads_per_worker": 1, "processes": True}
    # What Dask says of a worker that is killed is no fault.
    settings |= {"silence_logs": logging.CRITICAL, "dashboard_address": None, "local_directory": str(folder)}
    with LocalCluster(**settings) as cluster, Client(cluster) as client:
        yield Large(client, path, wanted)


def test_worker_processes(large: Large) -> None:
    assert len({*large.client.run(os.getpid).values(), os.getpid()}) == WORKERS + 1


@pytest.mark.parametrize("partitions", [1, 7, 1000])
def test_bag(partitions: int, large: Large) -> None:
    hold_answer("a bag", groups(bag_of(large.path, partitions)).compute(), large.wanted["full"])


def test_column_by_definition(large: Large) -> None:
    found = standings(groups(column_of(large.path, 50), "definition").compute())
    hold_answer("a column", found, large.wanted["definition"])


def test_lines_in_blocks_of_bytes(large: Large) -> None:
    hold_answer("lines", groups(lines(str(large.path), blocksize="4 MiB")).compute(), large.wanted["full"])


def test_canonical_texts_of_a_column(large: Large) -> None:
    texts = canon(column_of(large.path, 50)).compute().tolist()
    assert [it is not None for it in texts] == [it.group is not None for it in large.wanted["full"]]
    by_group: Dict[Optional[int], Set[str]] = {}
    for text, standing in zip(texts, large.wanted["full"]):
        by_group.setdefault(standing.group, set()).add(text)
    assert {len(it) for it in by_group.values()} == {1}, "one canonical text a group"


def test_a_worker_is_killed(large: Large) -> None:
    """A worker's process ends in the middle of a run: some partitions are grouped, and none is answered, since the last
    is read after that."""
    client, path, wanted = large
    before = dict(client.run(os.getpid))
    answered = []
    is_killed = path.with_name("killed")

    def kill() -> None:
        end = time.monotonic() + SECONDS
        while client.run_on_scheduler(made, name="own_groups") < 50 and time.monotonic() < end:
            time.sleep(0.02)
        answered.append(client.run_on_scheduler(made, name="answer"))
        os.kill(next(iter(before.values())), signal.SIGKILL)
        is_killed.touch()

    *parts, last = cut(path, 200)
    late = dask.delayed(read_late)(*last, str(is_killed))
    answer = groups(dask.bag.from_delayed([*(dask.delayed(read)(*it) for it in parts), late])).persist()
    thread = threading.Thread(target=kill)
    thread.start()
    found = answer.compute()
    thread.join()
    hold_answer("a worker killed in the middle", found, wanted["full"])
    left = set(client.run(os.getpid).values()) & set(before.values())
    assert (answered, len(left)) == ([0], WORKERS - 1), "one was killed in the middle"


def made(dask_scheduler: Any, name: str) -> int:
    """How many results of a function were made, as the scheduler sees it."""
    tasks = dask_scheduler.tasks.values()
    return sum(task.key.startswith(name) and task.state in ("memory", "released") for task in tasks)
