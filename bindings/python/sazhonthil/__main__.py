"""python3 -m sazhonthil show [--events FILE] [records|script]: prints records and events in words."""
import sys

from .show import main

if sys.argv[1:2] != ["show"]:
    print(__doc__, file=sys.stderr)
    sys.exit(2)
sys.exit(main(sys.argv[2:], "sazhonthil show"))
