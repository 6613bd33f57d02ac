"""`python -m delgunsai view URL|FILE..`: the viewer."""
import sys

from .view import main

if __name__ == '__main__':
    if sys.argv[1:2] != ['view']:
        sys.exit('usage: python -m delgunsai view URL|FILE.. (--help says more)')
    sys.exit(main(sys.argv[2:]))
