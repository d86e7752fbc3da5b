"""What the tools beside this folder share: the files of xensched, the measures, and how they are shown."""
import sys

if sys.version_info < (3, 11):
    sys.exit(f"the tools want Python 3.11 or newer, and this is {sys.version.split()[0]}")
