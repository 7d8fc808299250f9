"""This machine's addresses in networks."""
import contextlib
import fcntl
import socket
import struct

SIOCGIFADDR = 0x8915  # of Linux: an interface's address
FAR = "203.0.113.1", 9  # of a network for examples, so that the way there is the one to any other network


def own_addresses():
    """This machine's IPv4 addresses in networks, as its interfaces have them: its name may lead to 127.0.0.1 alone. The
    one by which it goes to other networks is first, since others are often those of virtual machines."""
    first = _address_towards_others()
    return sorted(_addresses_of_interfaces(), key=lambda address: (address != first, address))


def _addresses_of_interfaces():
    found = set()
    with socket.socket(socket.AF_INET, socket.SOCK_DGRAM) as asked:
        for _, name in socket.if_nameindex():
            with contextlib.suppress(OSError):  # an interface without an address
                found.add(socket.inet_ntoa(fcntl.ioctl(asked, SIOCGIFADDR, struct.pack("256s", name.encode()))[20:24]))
    return {address for address in found if not address.startswith("127.")}


def _address_towards_others():
    """Nothing is sent: a datagram's socket that is connected only has its own end chosen."""
    with socket.socket(socket.AF_INET, socket.SOCK_DGRAM) as asked:
        try:
            asked.connect(FAR)
        except OSError:  # no way to other networks
            return None
        return asked.getsockname()[0]
