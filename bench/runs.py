"""What runs of a program take."""

import os
import subprocess
import time


def timed(words):
    """The status of a run whose output goes nowhere, and its seconds."""
    with open(os.devnull, "wb") as nothing:
        began = time.perf_counter()
        status = subprocess.call(words, stdout=nothing, stderr=nothing)
        return status, time.perf_counter() - began


def greatest_memory(words):
    """The bytes that a run holds at most. A process counts what its parent held when it began, so the small `time` is asked."""
    asked = subprocess.run(
        ["/usr/bin/time", "-f", "%M", *words], stdout=subprocess.DEVNULL, stderr=subprocess.PIPE, text=True
    )
    return int(asked.stderr.split()[-1]) * 1024
