"""`python3 -m scanvolt.explaining` is `scanvolt-explain`."""

import sys

from .command import main

sys.exit(main())
