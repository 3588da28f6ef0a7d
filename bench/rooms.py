"""The rooms of bench/: by `import rooms` a script that has bench/ on its path finds the modules of all of them.

A room is a folder with a README.md. The line stands in front of those that import these modules.
"""
import os
import sys

BENCH = os.path.dirname(os.path.realpath(__file__))
TOP = os.path.dirname(BENCH)
ROOMS = sorted(name for name in os.listdir(BENCH) if os.path.exists(os.path.join(BENCH, name, "README.md")))

sys.path[1:1] = [os.path.join(BENCH, room) for room in ROOMS]
