"""Rungs as trees, and their drawing as Studio 5000 has it: for tools/ladder, tools/online and whoever draws a routine."""
