"""Runs a program again so that a deadlock which its trace predicts happens."""
