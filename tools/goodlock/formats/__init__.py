"""Formats of a run's results for programs: JSON, SARIF, JUnit, annotations for GitHub, code quality for GitLab, Markdown."""
