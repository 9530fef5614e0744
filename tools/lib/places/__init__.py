"""Where a refusal of the programs is: the names, the line and the text that a code and its numbers stand for. What tools/explain says."""
