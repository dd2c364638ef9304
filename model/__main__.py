"""`python3 -m model WORDS ..` behaves as the program does. The status is 99 for what the model does not speak of."""

import os
import signal
import sys

from model.outside import Real
from model.profile import Unspoken
from model.session import run


def main():
    signal.signal(signal.SIGPIPE, signal.SIG_IGN)
    try:
        status = run([os.fsencode(word) for word in sys.argv[1:]], Real())
    except Unspoken as cause:
        print(f"model: {cause}: not spoken of", file=sys.stderr)
        status = 99
    sys.exit(status)


main()
