"""What tools/hammer is made of: made cases, what must hold of every answer, and a plain interpreter of the rules."""
