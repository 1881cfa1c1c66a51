"""`python3 -m colscan`."""
import sys

from .cli import main

sys.exit(main())
