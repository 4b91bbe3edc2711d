"""python3 -m loddrume_lower"""

import sys

from .command import main

sys.exit(main())
