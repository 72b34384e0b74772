#!/usr/bin/env python3
"""The command `bench/cost.py`, which python/barrierfs_tools/cli/cost.py has."""
import pathlib
import sys

sys.dont_write_bytecode = True
sys.path.insert(0, str(pathlib.Path(__file__).resolve().parents[1] / "python"))
from barrierfs_tools.cli.cost import main  # noqa: E402

main()
