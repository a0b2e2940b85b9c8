"""Serves the page on a port until it is interrupted. `bin/page` runs this."""

import re
import sys

from page.server import serve

MOST_PORTS = 1 << 16

if __name__ == '__main__':
    if len(sys.argv) != 2 or not re.fullmatch('[0-9]{1,5}', sys.argv[1]) \
            or int(sys.argv[1]) >= MOST_PORTS:
        sys.exit('page: a port is a number below 65536')
    try:
        serve(int(sys.argv[1]))
    except ChildProcessError as fault:
        sys.exit(f'page: {fault}')
    except OSError as fault:
        sys.exit(f'page: port {sys.argv[1]} cannot be used: {fault.strerror}')
    except KeyboardInterrupt:
        pass
