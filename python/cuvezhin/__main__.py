"""python3 -m cuvezhin: see command."""
import sys

from .command import main

sys.exit(main())
