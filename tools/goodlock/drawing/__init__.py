"""Draws a trace and its report as HTML: for each cycle a ring of threads and locks, and under it a time line."""
