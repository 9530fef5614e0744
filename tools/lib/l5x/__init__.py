"""A project for `logix` of an L5X file: see docs/L5X.md."""
