"""`python3 -m uicc` is the command `uicc`."""
import sys

from .command import main

sys.exit(main())
