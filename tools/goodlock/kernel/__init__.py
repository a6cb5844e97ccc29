"""Recordings of the lock events of a Linux kernel."""
