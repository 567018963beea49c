"""python3 -m laurelsnap is the command laurelsnap."""

import sys

from .command import main

sys.exit(main())
