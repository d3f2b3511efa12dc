"""run.py FOLDER: makes 54 small states in a folder, applies their batches on four local workers, of which the one that is at work on OH is killed as it is about to
replace the master, and holds every file against what the library gives; then once more, when nothing may change."""
import os
import pathlib
import signal
import sys
import threading
import time

import distributed
import fantanolive
import run_states
from fantanolive.layouts import Detail, Row

STATES = (
    "AK AL AR AZ CA CO CT DC DE FL GA GU HI IA ID IL IN KS KY LA MA MD ME MI MN MO MS MT NC ND NE NH NJ NM NV NY OH OK OR PA PR RI SC SD TN TX UT VA VI VT WA "
    "WI WV WY"
).split()
FOLDER = pathlib.Path(sys.argv[1])
YEAR = 2007


def detail(state, number, dollars, kind):
    made = Detail(state=state, ssn=f"9{number:08d}", last_name="SMITH", first_name="JOHN", transaction_type=kind, case_type="N")
    made.arrearage_number = dollars
    return made


def make_state(number, state):
    """A master of some rows, and a batch that adds, changes and is rejected in part."""
    place = FOLDER / state
    place.mkdir()
    rows = fantanolive.make_batch(state, [detail(state, n, 100 + n, "A") for n in range(1, 20 + number)])
    (place / "master.bin").write_bytes(fantanolive.apply(b"", rows, "", YEAR).master)
    changes = [detail(state, n, 50, "M") for n in range(5, 15)] + [detail(state, n, 24 + n % 3, "A") for n in range(500, 510)]
    (place / "batch.bin").write_bytes(fantanolive.make_batch(state, changes))


def pause(state):
    """Stops the first task of OH where it is about to replace the master, until its worker is killed."""
    marker = FOLDER / "killed"
    if state == "OH" and not marker.exists():
        (FOLDER / "pid").write_text(str(os.getpid()))
        time.sleep(60)


def kill():
    """Kills the worker that waits."""
    while not (FOLDER / "pid").exists():
        time.sleep(0.05)
    time.sleep(0.2)
    (FOLDER / "killed").touch()
    os.kill(int((FOLDER / "pid").read_text()), signal.SIGKILL)


def held(what, found, wanted):
    if found != wanted:
        sys.exit(f"dask: {what}: {found!r}, not {wanted!r}")


def main():
    for number, state in enumerate(STATES):
        make_state(number, state)
    wanted = {}
    for state in STATES:
        place = FOLDER / state
        wanted[state] = fantanolive.apply_journaled((place / "master.bin").read_bytes(), (place / "batch.bin").read_bytes(), "", YEAR)
    with distributed.LocalCluster(n_workers=4, threads_per_worker=1, dashboard_address=None) as cluster, distributed.Client(cluster) as client:
        threading.Thread(target=kill, daemon=True).start()
        first = run_states.run_all(client, str(FOLDER), YEAR, pause)
        second = run_states.run_all(client, str(FOLDER), YEAR)
    held("killed", (FOLDER / "killed").exists(), True)
    held("states", [result["state"] for result in first], STATES)
    # what the killed worker had done and not yet told is done again, and found applied
    held("outcomes", {result["outcome"] for result in first} | {"applied before"}, {"applied", "applied before"})
    held("outcome of OH", [result["outcome"] for result in first if result["state"] == "OH"], ["applied"])
    held("outcomes of the second run", {result["outcome"] for result in second}, {"applied before"})
    for result, again in zip(first, second):
        place, left = FOLDER / result["state"], wanted[result["state"]]
        held(f"{place.name}, master", (place / "master.bin").read_bytes(), left.master)
        held(f"{place.name}, rejects", (place / "rejects.bin").read_bytes(), left.rejects)
        held(f"{place.name}, journal", (place / "journal.bin").read_bytes(), left.journal)
        held(f"{place.name}, accepted", (result["accepted"], again["accepted"]), (left.counts.accepted,) * 2)
        held(f"{place.name}, lines of the log", len((place / "master.bin.log").read_text().splitlines()), 2 if place.name == "OH" else 1)
        held(f"{place.name}, files", sorted(file.name for file in place.iterdir()), ["batch.bin", "journal.bin", "master.bin", "master.bin.log", "rejects.bin"])
        held(f"{place.name}, rows", len(Row.read_all(left.master)), result["rows"])
    shown = run_states.table(first).splitlines()
    held("lines of the table", len(shown), len(STATES) + 2)
    held("its last line", shown[-1].split()[0:2] + shown[-1].split()[-2:], ["all", str(20 * len(STATES)), "54", "states"])


if __name__ == "__main__":
    main()
    print("dask: 54 states on four workers, one of them killed; none was applied twice")
