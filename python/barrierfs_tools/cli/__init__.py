"""The commands: one module for each tool, with its words and what it prints."""
