"""`python -m causal` is the program `causal`."""
import sys

from causal.program import main

if __name__ == "__main__":
    sys.exit(main())
