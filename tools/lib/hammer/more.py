"""The kinds of cases beside those of main.py, as KINDS there; and how many of each the gate tries."""

from . import add_ons, begins, books, controllers, corpus, covers, explore_rules, explores, marks, mixes, pages, pictures, rare, scenarios, sessions, splits, tool_faults, trace_laws, wrong_words

KINDS = {
    "marks": (marks.marks, 12, "replay"), "begins": (begins.begins, 18, "replay"), "splits": (splits.splits, 0.2, "replay"),
    "books": (books.books, 0.3, "replay"), "sessions": (sessions.sessions, 1, None), "kept": (corpus.kept, 100, "replay"),
    "scenarios": (scenarios.scenarios, 0.2, None), "online": (pages.online, 0.2, None),
    "bad controllers": (controllers.bad_controllers, 0.02, None),
    "tools at fault": (tool_faults.tool_faults, 0.02, None), "mixes": (mixes.mixes, 0.3, "run"), "add-ons": (add_ons.add_ons, 0.2, "replay"),
    "cover": (covers.covers, 6, "logix_cover"), "explore": (explores.explorations, 1, "logix_explore"),
    "explored rules": (explore_rules.rules, 0.1, "logix_explore"), "pictures": (pictures.pictures, 2, "logix_wave"), "wrong words": (wrong_words.wrong_words, 1, "replay"),
    "instructions": (wrong_words.instructions, 0.02, "replay"), "laws": (trace_laws.laws, 8, "logix_laws"), "rare": (rare.rare, 1, "logix_explore"),
}
GATE = {
    "marks": 600, "begins": 500, "splits": 25, "books": 40, "sessions": 80, "kept": 1_000, "scenarios": 60, "online": 15, "bad controllers": 26,
    "tools at fault": 30, "mixes": 6, "add-ons": 20, "cover": 300, "explore": 300, "explored rules": len(explore_rules.RULES), "pictures": 60, "wrong words": 60, "instructions": 2, "laws": 300, "rare": 80,
}
# Those whose cases are counted, as in IN_TURN of main.py.
IN_TURN = {
    "bad controllers": lambda _: len(controllers.TURNS), "tools at fault": lambda _: len(tool_faults.faults()),
    "explored rules": lambda _: len(explore_rules.RULES),
}
