"""Checks of the program and of the second program by what others say."""
