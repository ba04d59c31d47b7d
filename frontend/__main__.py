"""The start of the front end, as `python3 -m frontend` or through ./dipperlock. It uses nothing that an old Python lacks."""
import os
import sys

OLDEST = (3, 7)
HERE = os.path.dirname(os.path.realpath(__file__))


def start():
    """Run the command line and give the exit status, whatever happens."""
    if sys.version_info < OLDEST:
        tell("dipperlock: Python %d.%d or later is needed; this is %d.%d" % (OLDEST + tuple(sys.version_info[:2])))
        return 3
    # Where this file is run by its path, Python looks for modules in its folder first, and modules here have names of its own.
    sys.path[:] = [os.path.dirname(HERE)] + [path for path in sys.path if os.path.realpath(path) != HERE]
    try:
        from frontend.cli import main

        return main(sys.argv[1:])
    except KeyboardInterrupt:
        return 130
    except Exception as error:  # a part of the front end is missing or broken
        tell("dipperlock: the front end cannot start: %s: %s" % (type(error).__name__, error))
        return 4


def tell(text):
    """Write a line to standard error, if that can be done; past Python's buffer, which would be tried again at the end."""
    try:
        os.write(2, (text + "\n").encode("utf-8", "backslashreplace"))
    except OSError:
        pass


if __name__ == "__main__":
    sys.exit(start())
