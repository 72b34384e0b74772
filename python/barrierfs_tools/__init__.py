"""Tools around barrierfs: a second program, written from docs/FORMATS.md alone, and what tries, explains and draws
scripts."""
