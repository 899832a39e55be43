"""`python3 -m scanvolt.serving` is the command scanvolt-serve."""

import sys

from .command import main

sys.exit(main())
