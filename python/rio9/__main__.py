"""Runs `rio9d` as `python3 -m rio9`."""

import sys

from rio9.commands import main

sys.exit(main())
