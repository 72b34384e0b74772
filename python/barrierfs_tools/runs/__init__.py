"""The program as a child: built, run, timed, and ended."""
