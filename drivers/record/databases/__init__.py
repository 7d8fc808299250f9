"""The databases that can be recorded. Each has a class of its own, which sessions.py calls. A server is at the path of its
socket, or at an address: its host and port."""
import argparse


def address_of(word):
    """The host and the port that a word of the command line names."""
    host, _, port = word.rpartition(":")
    if not (host and port.isdecimal() and 0 < int(port) < 65536):
        raise argparse.ArgumentTypeError(f"not HOST:PORT: {word!r}")
    return host, int(port)


def add_places(parser, required):
    """The two options that say where the server is."""
    places = parser.add_mutually_exclusive_group(required=required)
    places.add_argument("--socket", metavar="PATH", help="the server's socket")
    places.add_argument("--address", dest="socket", type=address_of, metavar="HOST:PORT",
                        help="the server's address, in place of a socket")


def place_text(place):
    return place if isinstance(place, str) else f"{place[0]}:{place[1]}"
