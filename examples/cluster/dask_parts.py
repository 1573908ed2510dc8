"""Counts the connected planar graphs of N vertices in parts by Dask: python3 dask_parts.py N PARTS [ADDRESS OF A SCHEDULER]

Run it from the top of the repository, which the workers see too. What a worker that is lost had in hand goes to another one.
"""
import collections
import subprocess
import sys

from dask.distributed import Client, as_completed


def part(k: int, n: str, parts: str) -> str:
    """What part.sh writes for a part; raises CalledProcessError where the part is not whole."""
    return subprocess.run(["bash", "examples/cluster/part.sh", n, str(k), parts], stdout=subprocess.PIPE, check=True).stdout.decode()


if __name__ == "__main__":
    n, parts, *address = sys.argv[1:]
    table, ends = collections.Counter(), collections.Counter()
    with Client(*address) as client:
        for _, text in as_completed(client.map(part, range(int(parts)), n=n, parts=parts, retries=3, pure=False), with_results=True):
            for words in map(str.split, text.splitlines()):
                if words[0] == "end":
                    ends.update(records=int(words[2]), refused=int(words[4]))
                else:
                    table[tuple(map(int, words[:5]))] += int(words[5])
    for counts, records in sorted(table.items()):
        print(*counts, records)
    print("end records", ends["records"], "refused", ends["refused"])
