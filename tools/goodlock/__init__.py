"""What the tools and the agents share: traces, reports, groups, the frame protocol, refutations, drawings and formats.

The commands in `tools/` and `agents/` are a few lines each, which call a module of `goodlock.commands`. It needs only the standard
library, of Python 3.9 or later. The recorder in `agents/python` imports nothing of it.
"""
import sys

if sys.version_info < (3, 9):
    sys.exit(f"the tools need Python 3.9 or later, and this is {sys.version.split()[0]}")
