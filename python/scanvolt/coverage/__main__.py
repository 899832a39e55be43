"""`python3 -m scanvolt.coverage` is the command scanvolt-coverage."""

import sys

from .command import main

sys.exit(main())
