"""What the commands of tools/ are made of: a folder for each, and modules that several use."""
