"""One state's batch applied to its master, file by file as the program does it. What a worker runs.

A state's folder has master.bin and batch.bin in EBCDIC and, where the state has local codes, locals.bin. A run leaves rejects.bin, journal.bin (for
`fantanolive take-back`), a line of master.bin.log (for `fantanolive log`) and the new master.bin, in this order: each is written under its name with .tmp behind
it, is on the disk, and is renamed. So the master is the old one or the new one, whole, whenever a run is cut off; and the log, which was there before the new
master, tells with the master's fingerprint whether a batch was applied. A run that finds it applied changes nothing."""
import contextlib
import datetime
import fcntl
import hashlib
import json
import os
import pathlib
from typing import Any, Callable, Dict, Iterator, List, Optional

import fantanolive

COUNTS = ("details", "accepted", "warned", "rejected", "neither", "rows_before", "rows")


def run_state(folder: str, year: int, before_master: Optional[Callable[[str], None]] = None) -> Dict[str, Any]:
    """Applies a state's batch, once. Returns the state, what became of it and the counts. before_master is called with the state before its master is
    replaced; it is for tests."""
    place = pathlib.Path(folder)
    with _locked(place / "master.bin.lock"):
        master, batch = _bytes(place / "master.bin"), (place / "batch.bin").read_bytes()
        runs = _runs(place / "master.bin.log")
        done = _applied(runs, _fingerprint(batch), _fingerprint(master))
        if done is not None:
            return {"state": place.name, "outcome": "applied before", **done["counts"]}
        try:
            left = fantanolive.apply_journaled(master, batch, _bytes(place / "locals.bin"), year)
        except fantanolive.Refused as refused:
            return {"state": place.name, "outcome": f"refused {refused.number}: {refused.wrong}"}
        counts = _counts(master, batch, left)
        _replace(place / "rejects.bin", left.rejects)
        _replace(place / "journal.bin", left.journal)
        line = _line(place, master, batch, left, counts)
        _replace(place / "master.bin.log", _bytes(place / "master.bin.log") + line)
        if before_master is not None:
            before_master(place.name)
        _replace(place / "master.bin", left.master)
    return {"state": place.name, "outcome": "applied", **counts}


@contextlib.contextmanager
def _locked(path: pathlib.Path) -> Iterator[None]:
    """Holds the lock of a master, which is the program's too; that of a worker that was killed is free."""
    while True:
        with open(os.open(path, os.O_RDWR | os.O_CREAT | os.O_NOFOLLOW, 0o600), "rb") as file:
            fcntl.flock(file, fcntl.LOCK_EX)
            # the one that had it before may have removed the file, and its lock with it
            if path.exists() and os.path.samestat(os.fstat(file.fileno()), os.stat(path)):
                try:
                    yield
                finally:
                    path.unlink()
                return


def _bytes(path: pathlib.Path) -> bytes:
    return path.read_bytes() if path.exists() else b""


def _fingerprint(data: bytes) -> Optional[str]:
    return hashlib.sha256(data).hexdigest() if data else None


def _runs(path: pathlib.Path) -> List[Dict[str, Any]]:
    return [json.loads(line) for line in _bytes(path).decode("ascii").splitlines()]


def _applied(runs: List[Dict[str, Any]], batch: Optional[str], master: Optional[str]) -> Optional[Dict[str, Any]]:
    """The run that applied a batch: the log has it, its master is the present one or the one that a later run began with, and that was no take-back."""
    for place, run in enumerate(runs):
        later = [other for other in runs[place + 1 :] if other["master_before"] == run["master_after"] != other["master_after"]]
        is_there = run["master_after"] == master or later
        was_taken_back = any(other["command"] == "take-back" for other in later)
        if run["command"] == "apply" and run["inputs"][0]["sha256"] == batch and is_there and not was_taken_back:
            return run
    return None


def _counts(master: bytes, batch: bytes, left: fantanolive.Journaled) -> Dict[str, int]:
    counts = {**left.counts._asdict(), "details": len(left.verdicts), "rows_before": len(master) // fantanolive.ROW}
    return {**{name: counts[name] for name in COUNTS}, "journal_bytes": len(left.journal)}


def _line(place: pathlib.Path, master: bytes, batch: bytes, left: fantanolive.Journaled, counts: Dict[str, int]) -> bytes:
    """The line of the log, in the program's form."""
    locals_ = _bytes(place / "locals.bin")
    inputs = [{"kind": kind, "name": f"{kind}.bin", "sha256": hashlib.sha256(data).hexdigest()} for kind, data in (("batch", batch), ("locals", locals_))]
    run = {
        "time": datetime.datetime.now(datetime.timezone.utc).strftime("%Y-%m-%dT%H:%M:%SZ"),
        "version": fantanolive.__version__,
        "command": "apply",
        "status": 1 if left.counts.rejected else 0,
        "inputs": inputs,
        "journal": {"kind": "journal", "name": "journal.bin", "sha256": hashlib.sha256(left.journal).hexdigest()},
        "master_before": _fingerprint(master),
        "master_after": _fingerprint(left.master),
        "counts": counts,
    }
    return json.dumps(run, separators=(",", ":")).encode("ascii") + b"\n"


def _replace(path: pathlib.Path, data: bytes) -> None:
    """Puts a file in place whole, readable by its owner alone where it is new."""
    new = path.with_name(path.name + ".tmp")
    mode = path.stat().st_mode & 0o777 if path.exists() else 0o600
    with open(os.open(new, os.O_WRONLY | os.O_CREAT | os.O_TRUNC, 0o600), "wb") as file:
        os.fchmod(file.fileno(), mode)
        file.write(data)
        file.flush()
        os.fsync(file.fileno())
    os.rename(new, path)
    folder = os.open(path.parent, os.O_RDONLY)
    try:
        os.fsync(folder)
    finally:
        os.close(folder)
