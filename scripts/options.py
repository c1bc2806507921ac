"""The option of a script."""
import sys


def option(usage, *options):
    """Returns the option that the script was called with, or None. Prints the usage and ends with 2 if it was called with other words."""
    words = sys.argv[1:]
    if not words:
        return None
    if len(words) == 1 and words[0] in options:
        return words[0]
    print(f"usage: {usage}", file=sys.stderr)
    sys.exit(2)
