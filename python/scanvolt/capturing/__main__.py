"""`python3 -m scanvolt.capturing` is `scanvolt-capture`."""

import sys

from .command import main

sys.exit(main())
