"""The command lines. Each module has `main`, which returns the exit status."""
