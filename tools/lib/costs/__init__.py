"""What `tools/costs` measures and tells."""
