#!/usr/bin/env python3
"""Times the two writes and two syncs of an append, with fsync and with fdatasync: `syncs.py FOLDER [COUNT]`.

FOLDER lies on the storage to measure. The record has 200 bytes. Prints milliseconds an append, the median of COUNT.
"""

import os
import statistics
import sys
import time


def append(file, place, sync):
    os.pwrite(file, b"r" * 200 + b"\0", place + 1)
    sync(file)
    os.pwrite(file, b"O", place)
    sync(file)


def median(folder, count, sync):
    path = os.path.join(folder, "syncs.tmp")
    file = os.open(path, os.O_RDWR | os.O_CREAT | os.O_TRUNC)
    try:
        times = []
        for number in range(count):
            start = time.perf_counter()
            append(file, number * 201, sync)
            times.append(time.perf_counter() - start)
        return statistics.median(times) * 1000
    finally:
        os.close(file)
        os.unlink(path)


def main():
    folder = sys.argv[1]
    count = int(sys.argv[2]) if len(sys.argv) > 2 else 200
    for name, sync in (("fsync", os.fsync), ("fdatasync", os.fdatasync)):
        print(f"{name}: {median(folder, count, sync):.3f} ms an append")


main()
