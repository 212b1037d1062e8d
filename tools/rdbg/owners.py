"""Finds out which user owns the other end of a TCP connection between two programs of this machine.

Linux answers the question for a single socket (`sock_diag(7)`), at a cost that does not depend on
the number of sockets. Where that is not available, its tables of all sockets are searched. Other
systems do not say. The clients of a port are listed in the tables alone."""
import contextlib
import os
import socket
import struct
import sys
from typing import Callable, Dict, Iterator, List, NamedTuple, Optional, Tuple

LOCAL = "127.0.0.1"
Address = Tuple[str, int]
# A request of sock_diag(7) for one TCP socket in any state, identified by both its addresses, and
# by the loopback interface, since a socket that is bound to it is not found without.
SOCK_DIAG, BY_FAMILY, IS_REQUEST, TCP, ANY, LOOPBACK = 4, 20, 1, 6, 0xFFFFFFFF, 1
HEAD, ENDS = struct.Struct("=IHHII"), struct.Struct("!HH16s16s")
REQUEST, COOKIE = struct.Struct("=BBBBI"), struct.pack("=III", LOOPBACK, ANY, ANY)
# The response: family, state, timer, retries; the addresses; expiry and queues; user and inode.
RESPONSE = struct.Struct("=BBBB48sIIIII")
# The tables, and what precedes an IPv4 address in each: that of IPv6 has it mapped.
MAPPED = f"{'0' * 16}{struct.unpack('=I', bytes([0, 0, 255, 255]))[0]:08X}"
TABLES = (("/proc/net/tcp", ""), ("/proc/net/tcp6", MAPPED))
ANY_IPV4, ANY_IPV6 = "0" * 8, "0" * 32
# TCP states (include/net/tcp_states.h): a connection that waits to be accepted is in one of two.
ESTABLISHED, SYN_RECEIVED, LISTENS = 1, 3, 10
IS_PENDING = (ESTABLISHED, SYN_RECEIVED)
# How long connecting to oneself may take.
TIMEOUT_SECONDS = 1.0


class Socket(NamedTuple):
    """A TCP socket as the system describes it."""

    state: int
    user: int
    inode: int

    @property
    def owner(self) -> Optional[int]:
        """The user of the program that holds the socket. `None` if no program does: a connection
        that was not accepted yet, or that was closed, has no inode, and is reported as root's."""
        return self.user if self.inode else None


# Finds a socket by its own address and the address of the other end, or the socket that listens at
# an address if there is no other end.
Lookup = Callable[[Address, Optional[Address]], Optional[Socket]]
# What a lookup raises on a system that does not have it.
LOOKUP_ERRORS = (OSError, AttributeError, ValueError, IndexError, struct.error)


def ask_kernel(own: Address, other: Optional[Address]) -> Optional[Socket]:
    """Asks the kernel for one socket. For a listening socket it applies the rules by which it
    selects one for a new connection."""
    peer, peer_port = other or ("0.0.0.0", 0)
    ends = ENDS.pack(own[1], peer_port, socket.inet_aton(own[0]), socket.inet_aton(peer))
    wanted = REQUEST.pack(socket.AF_INET, TCP, 0, 0, ANY) + ends + COOKIE
    with socket.socket(socket.AF_NETLINK, socket.SOCK_DGRAM, SOCK_DIAG) as system:
        system.setblocking(False)
        system.connect((0, 0))
        system.send(HEAD.pack(HEAD.size + len(wanted), BY_FAMILY, IS_REQUEST, 0, 0) + wanted)
        answer = system.recv(4_096)
    if HEAD.unpack_from(answer)[1] != BY_FAMILY:
        return None  # (no such socket, or the kernel does not know the request)
    _, state, _, _, _, _, _, _, user, inode = RESPONSE.unpack_from(answer, HEAD.size)
    if (state == LISTENS) != (other is None):
        return None  # (without a connection of these addresses it answers with the listener)
    return Socket(state, user, inode)


def search_tables(own: Address, other: Optional[Address]) -> Optional[Socket]:
    """Searches the system's tables for a socket."""
    if other is not None:
        ends = [hexadecimal(own), hexadecimal(other)]
        rows = (it for before, it in table_rows() if it[1:3] == [before + end for end in ends])
        return next(map(socket_of, rows), None)
    port = f":{own[1]:04X}"
    address = hexadecimal(own)
    # (an exact address takes precedence, and IPv4 over IPv6, whose any-address may not include it)
    places = [address, ANY_IPV4 + port, MAPPED + address, ANY_IPV6 + port]
    listening = [it for _, it in table_rows() if int(it[3], 16) == LISTENS and it[1] in places]
    first = min(listening, key=lambda it: places.index(it[1]), default=None)
    return None if first is None else socket_of(first)


def clients_of(port: int) -> Dict[int, Optional[int]]:
    """Returns the users with connections to a port of this machine, by the port at their end; `None`
    for a connection that was closed. Empty on a system without tables."""
    here, found = hexadecimal((LOCAL, port)), {}
    with contextlib.suppress(OSError, ValueError, IndexError):
        for before, fields in table_rows():
            if fields[2] == before + here:
                found[int(fields[1].rpartition(":")[2], 16)] = socket_of(fields).owner
    return found


def hexadecimal(end: Address) -> str:
    """Returns an address and a port in the form in which the tables have them."""
    return f"{struct.unpack('=I', socket.inet_aton(end[0]))[0]:08X}:{end[1]:04X}"


def table_rows() -> Iterator[Tuple[str, List[str]]]:
    """Returns the rows of the tables, each with what precedes an IPv4 address in it."""
    for path, before in TABLES:
        with contextlib.suppress(FileNotFoundError), open(path, encoding="ascii") as table:
            next(table, None)  # (the heading)
            for row in table:
                yield before, row.split()


def socket_of(fields: List[str]) -> Socket:
    """Returns the socket of a row."""
    return Socket(int(fields[3], 16), int(fields[7]), int(fields[9]))


def find_lookup() -> Optional[Lookup]:
    """Returns the first lookup that works on this system, tried on a connection of this process to
    itself, or `None`."""
    if sys.platform != "linux":
        return None
    with socket.socket() as listening, socket.socket() as ours:
        listening.settimeout(TIMEOUT_SECONDS)
        ours.settimeout(TIMEOUT_SECONDS)
        try:
            listening.bind((LOCAL, 0))
            listening.listen()
            ours.connect(listening.getsockname())
            accepted, _ = listening.accept()
        except OSError:
            return None
        with accepted:
            ways: Tuple[Lookup, ...] = (ask_kernel, search_tables)
            return next((it for it in ways if client_owner(it, accepted) == os.geteuid()), None)


def client_owner(lookup: Lookup, connection: socket.socket) -> Optional[int]:
    """Returns the user at the other end of a connection that was accepted here, or `None` if that
    cannot be determined or the other end was closed."""
    try:
        client = lookup(connection.getpeername(), connection.getsockname())
    except LOOKUP_ERRORS:
        return None
    return None if client is None else client.owner


class OwnerUnknown(Exception):
    """The system does not say who owns a server."""


def server_owner(lookup: Lookup, connection: socket.socket) -> Optional[int]:
    """Returns the user whose program has accepted a connection that was made here, or will accept
    it. `None` if the other end was closed, so that nobody can read what is sent.

    A connection that waits to be accepted belongs to nobody yet, so the answer is the owner of the
    listening socket. The connection is looked up again after that: if its listener has accepted it
    and has left the port to another program meanwhile, the first lookup misses the one and the
    second the other. Closing a listener resets the connections that wait at it.

    Raises `OwnerUnknown` if the connection waits and no listening socket is found.
    """
    try:
        server, client = connection.getpeername(), connection.getsockname()
    except OSError:
        return None  # (it was reset)
    try:
        accepted = lookup(server, client)
        if accepted is None or accepted.owner is None:
            listener = lookup(server, None)
            accepted = lookup(server, client)
        if accepted is None:
            return None
        if accepted.owner is not None or accepted.state not in IS_PENDING:
            return accepted.owner
        if listener is None or listener.owner is None:
            raise OwnerUnknown
    except LOOKUP_ERRORS:
        raise OwnerUnknown from None
    return listener.owner
