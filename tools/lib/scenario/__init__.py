"""Scenarios: what happens to a machine, in time, and what must hold; read, run over a session of the controller, judged and told."""
