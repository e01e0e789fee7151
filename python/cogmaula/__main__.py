"""`python3 -m cogmaula`: the command line."""

import sys

from .cli import main

sys.exit(main())
