"""How often each instruction of a run was executed, as the proved program `logix_cover` counts it, told by rungs."""
