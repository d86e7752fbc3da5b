"""What a tool says of itself, where it is asked."""
import sys


def help_on(text):
    """Ends the program with the page of a tool where its only word is --help or -h."""
    if sys.argv[1:] in (["--help"], ["-h"]):
        print(text.strip())
        sys.exit(0)
