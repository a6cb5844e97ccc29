"""Shows a running server in a browser: its events, its questions and their reports. Asks questions."""
