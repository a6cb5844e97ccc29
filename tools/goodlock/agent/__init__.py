"""Makes the reports of a run that a collector has written as traces."""
