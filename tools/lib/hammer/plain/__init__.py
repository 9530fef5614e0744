"""A plain interpreter of docs/CONTROLLER.md and docs/FORMATS.md, written from these alone: the judge of made cases.

It is a second reader on purpose: what it judges, the programs, has no part in it, and it uses no other module of the tools, so it has a
reader of rungs of its own beside lib/neutral. Tools that explain may use it, and read tags and projects by it (lib/tags, lib/places).

Texts are strings with one character a byte (latin-1), so that places in them count bytes.
"""
