"""What each Python script of tools/ calls first: with -h or --help among its words it prints the text at its head, and ends."""
import sys


def answer(text):
    """Prints the text and ends, where that is asked for."""
    if {"-h", "--help"} & set(sys.argv[1:]):
        print(text.strip())
        sys.exit(0)
