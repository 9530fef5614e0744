"""tools/online, lowest first: plan, journal, talk, edits, seen, follower; watch, session; player, uses, shown, taking; commands, server, main."""
