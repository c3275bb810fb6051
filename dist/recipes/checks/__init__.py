"""The modules of the recipes `health`, `compare` and `trip`."""
