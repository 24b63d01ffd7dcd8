"""Runs whose threads are disturbed by `disturb.c`. Wants a C compiler."""

import os
import random
import subprocess

# Calls to a disturbance, on average: a command makes some fifty.
RATES = [100, 300, 1000]


def compiled(folder):
    """The library, built in a folder."""
    source = os.path.join(os.path.dirname(os.path.abspath(__file__)), "disturb.c")
    library = os.path.join(folder, "disturb.so")
    subprocess.run(["cc", "-O2", "-shared", "-fPIC", "-o", library, source, "-ldl"], check=True)
    return library


def surroundings(library, seed, turn):
    """The environment of a run of a seed's script, of which every second one is disturbed."""
    if library is None or (seed + turn) % 2 == 0:
        return None
    rate = random.Random("rate %d %d" % (seed, turn)).choice(RATES)
    return dict(os.environ, LD_PRELOAD=library, DISTURB="%d %d" % (seed + (turn << 32), rate))
