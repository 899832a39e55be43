"""`python3 -m scanvolt.scenario` is `scanvolt-scenario`."""

import sys

from .command import main

sys.exit(main())
