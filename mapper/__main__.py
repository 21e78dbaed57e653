"""`python3 -m mapper`, which the launcher `map` runs."""
import sys

if sys.version_info < (3, 8):
    sys.exit('map: Python 3.8 or later is needed, and python3 is %d.%d here.' % sys.version_info[:2])

from mapper.main import main

sys.exit(main())
