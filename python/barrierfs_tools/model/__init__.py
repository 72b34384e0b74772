"""The second program: what `replay`, `run`, `show`, `check`, `widen` and `kv` say, by docs/FORMATS.md alone."""
