#!/usr/bin/env python3
"""The command `examples/outside/closed_media.py`, which python/barrierfs_tools/cli/closed_media.py has."""
import pathlib
import sys

sys.dont_write_bytecode = True
sys.path.insert(0, str(pathlib.Path(__file__).resolve().parents[2] / "python"))
from barrierfs_tools.cli.closed_media import main  # noqa: E402

main()
