"""`python3 -m peng_robinson_board` is `prboard`."""
import sys

from .cli import main

sys.exit(main())
