"""Sockets of a multicast group of IPv4 on an interface."""
import socket
import struct
import sys

# Of Linux: what other sockets joined doesn't come.
IP_MULTICAST_ALL = 49


def joined(group, port, interface):
    """A socket to which comes what is sent to the group by this interface."""
    it = socket.socket(socket.AF_INET, socket.SOCK_DGRAM)
    it.setsockopt(socket.SOL_SOCKET, socket.SO_RCVBUF, 4 << 20)
    it.setsockopt(socket.SOL_SOCKET, socket.SO_REUSEADDR, 1)
    it.setsockopt(socket.IPPROTO_IP, IP_MULTICAST_ALL, 0)
    it.bind((group, int(port)))
    request = struct.pack("4s4si", socket.inet_aton(group), bytes(4), socket.if_nametoindex(interface))
    it.setsockopt(socket.IPPROTO_IP, socket.IP_ADD_MEMBERSHIP, request)
    it.setblocking(False)
    print(f"joined {group}", file=sys.stderr, flush=True)
    return it
