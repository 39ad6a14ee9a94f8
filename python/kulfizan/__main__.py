"""`python -m kulfizan`: the commands."""
import sys

from kulfizan.cli import main

sys.exit(main())
