#!/usr/bin/env python3
"""run_states.py SCHEDULER FOLDER YEAR: applies the batch of every state in a folder, one task a state, on the workers of a Dask scheduler (such as
tcp://host:8786), and prints one table. FOLDER is seen by all workers under the same name and has a folder for each state (states.py). It can be run again at any
time: what was applied is not applied twice."""
import pathlib
import sys
from typing import Any, Callable, Dict, List, Optional

import distributed
import states


def run_all(
    client: "distributed.Client", folder: str, year: int, before_master: Optional[Callable[[str], None]] = None
) -> List[Dict[str, Any]]:
    """Runs every state, in the order of their names. A task whose worker is lost runs again on another."""
    client.upload_file(states.__file__)
    folders = sorted(str(place) for place in pathlib.Path(folder).iterdir() if (place / "batch.bin").exists())
    tasks = [client.submit(states.run_state, place, year, before_master, pure=False, key=f"state-{place}") for place in folders]
    return [task.result() for task in tasks]


def table(results: List[Dict[str, Any]]) -> str:
    """A line for each state, and their sums."""
    head = ["state", *states.COUNTS, "outcome"]
    lines = [[str(result.get(name, "")) for name in head] for result in results]
    sums = [str(sum(result.get(name, 0) for result in results)) for name in states.COUNTS]
    lines = [head] + lines + [["all", *sums, f"{len(results)} states"]]
    widths = [max(len(line[i]) for line in lines) for i in range(len(head))]
    return "\n".join("  ".join(text.rjust(width) if 0 < i < len(head) - 1 else text.ljust(width) for i, (text, width) in enumerate(zip(line, widths))).rstrip() for line in lines)


def main(arguments: List[str]) -> int:
    if len(arguments) != 3 or not arguments[2].isdigit():
        print("usage: run_states.py SCHEDULER FOLDER YEAR", file=sys.stderr)
        return 2
    with distributed.Client(arguments[0]) as client:
        results = run_all(client, arguments[1], int(arguments[2]))
    print(table(results))
    return 0 if all(result["outcome"].startswith("applied") for result in results) else 1


if __name__ == "__main__":
    sys.exit(main(sys.argv[1:]))
