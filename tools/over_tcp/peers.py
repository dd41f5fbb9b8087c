"""Peers that lie, tear frames or say nothing, and what a node sends to one."""
import hashlib
import random
import socket
import time

from over_tcp.objects import BANK_PLAIN, MARKET, greeting
from over_tcp.talking import BYE, HOST, Client, Node, ack, call, connected, free_bases, hello, is_so, number, request, verdict


# Of the bank among two replicas: lane 0 has the withdrawals, which replica 1 decides, 1 and 2 the deposits of each.
H = greeting(2, 2)
DEPOSIT = call(2, 1, 0, [9])
LIES = {
    # what is on the link, and how many entries it makes
    "a farewell first": (BYE, 0),
    "another digest": (H[:33] + bytes([H[33] ^ 1]) + H[34:], 0),
    "another object's digest": (hello(hashlib.sha256(MARKET).digest(), 2, 2), 0),
    "another sender": (greeting(1, 2), 0),
    "another number of replicas": (greeting(2, 3), 0),
    "more replicas than there may be": (greeting(2, 9), 0),
    "another version": (greeting(2, 2, version=2), 0),
    "a call before the greeting": (DEPOSIT + H, 0),
    "a torn greeting": (H[:20], 0),
    "a byte of no frame": (H + b"\x07", 0),
    "a version of no frame": (H + b"\x01\x02", 0),
    "a second greeting": (H + H, 1),
    "more confirmed than there is": (H + ack(1, 1), 1),
    "a lane that isn't confirmed to 1": (H + ack(2, 0), 1),
    "a lane that isn't there": (H + ack(3, 0), 1),
    "a frame that is torn": (H + b"\x03\x01", 0),
    "a call that is torn at its last byte": (H + DEPOSIT[:-1], 0),
    "nothing after the greeting": (H, 0),
    "a farewell": (H + BYE, 1),
    "a call after a farewell": (H + BYE + DEPOSIT, 1),
    "a call of the leader's": (H + call(0, 1, 1, [0], [0, 0]), 1),
    "a call of the node's own": (H + call(1, 1, 0, [9]), 1),
    "a method of another lane": (H + call(2, 1, 1, [0]), 1),
    "a method that isn't there": (H + call(2, 1, 31, [9]), 1),
    "no argument": (H + call(2, 1, 0, []), 1),
    "an amount that is too large": (H + call(2, 1, 0, [1 << 32]), 1),
    "counts that the method doesn't have": (H + call(2, 1, 0, [9], [1]), 1),
    "number 0": (H + call(2, 0, 0, [9]), 0),
    "number 65,537": (H + call(2, 65_537, 0, [9]), 0),
    "seven arguments": (H + call(2, 1, 0, [9] * 7), 0),
    "a verdict that nobody asked for": (H + verdict(0, 1, 0, number(1, 4)), 1),
    "a request of a free method": (H + request(0, 1, 0, [9]), 1),
    "a request to a group that isn't there": (H + request(1, 1, 1, [9]), 1),
    "a request without its argument": (H + request(0, 1, 1, []), 1),
    "a lie, and a call": (H + ack(2, 0) + DEPOSIT, 1),
    "zeros": (bytes(5_000), 0),
    "bytes that were drawn": (random.Random(7).randbytes(5_000), 0),
    "a greeting and bytes that were drawn": (H + b"\xff" + random.Random(8).randbytes(5_000), 0),
}


def is_over(link):
    """Waits for the link's end."""
    try:
        while link.recv(4_096):
            pass
    except ConnectionResetError:
        pass
    link.close()


def peers_that_lie(program, _place):
    """Replica 2 of two is this script. Each lie ends its link and changes nothing, and the node goes on."""
    node = Node(program, 1, free_bases(2), BANK_PLAIN)
    client, entries = node.client(), 0
    for lie, (text, enters) in LIES.items():
        link = connected(node.peer_port(2))
        try:
            link.sendall(text)
            link.shutdown(socket.SHUT_WR)
        except OSError:
            pass
        is_over(link)
        is_so(lie, client.all(["show balance", "log", "counts"]), ["value 0", "log", "counts 0 0 0"])
        entries += enters + 3
    link = connected(node.peer_port(2))
    link.sendall(H)
    reset = Client.__new__(Client)
    reset.socket = link
    reset.reset()
    for _ in range(100):
        connected(node.peer_port(2)).close()
    is_so("after links that end at once", client.ask("log"), "log")
    is_so("the entries", node.stop(), entries + 2)


def links_that_say_nothing(program, _place):
    """A silent link and one whose frame isn't finished hold up their port alone; what comes after them is taken."""
    node = Node(program, 1, free_bases(3), BANK_PLAIN)
    silent, unfinished = connected(node.peer_port(2)), connected(node.peer_port(3))
    unfinished.sendall(greeting(3, 3) + call(3, 1, 0, [9])[:-1])
    behind = connected(node.peer_port(2))
    behind.sendall(greeting(2, 3) + DEPOSIT)
    client = node.client()
    time.sleep(0.5)
    is_so("the node goes on", client.all(["issue deposit 1", "show balance"]), ["applied +1:1", "value 1"])
    silent.close()
    client.until("show balance", "value 10")
    unfinished.close()
    again = connected(node.peer_port(3))
    again.sendall(greeting(3, 3) + call(3, 1, 0, [9]))
    client.until("show balance", "value 19")
    is_so("the log", client.ask("log"), "log 1:1 2:1 3:1")
    node.stop()


def frames_in_pieces(program, _place):
    """What is true is taken after lies: byte by byte, out of order, and once."""
    node = Node(program, 1, free_bases(2), BANK_PLAIN)
    client = node.client()
    link = connected(node.peer_port(2))
    for byte in H + call(2, 2, 0, [30]) + DEPOSIT:
        link.sendall(bytes([byte]))
    client.until("log", "log 2:1 2:2")
    link.sendall(call(2, 3, 0, [100]) + ack(2, 0) + call(2, 4, 0, [100]))
    is_over(link)
    client.until("log", "log 2:1 2:2 2:3")
    link = connected(node.peer_port(2))
    link.sendall(H + DEPOSIT + call(2, 3, 0, [100]) + request(0, 1, 1, [139]) + request(0, 1, 1, [139]) + request(0, 3, 1, [0]) + request(0, 2, 1, [1]) + BYE + request(0, 3, 1, [0]))
    is_over(link)
    client.until("log", "log 2:1 2:2 2:3 0:1")
    is_so("the value", client.ask("show balance"), "value 0")
    node.stop()


def what_a_node_sends(program, _place):
    """Replica 2 of two is this script, and hears what replica 1 sends, on a link and on the next one."""
    bases = free_bases(2)
    server = socket.create_server((HOST, bases[1] + 1))
    node = Node(program, 1, bases, BANK_PLAIN)
    server.settimeout(10)

    def hear(wanted):
        link, _ = server.accept()
        link.settimeout(10)
        got = b""
        while len(got) < len(wanted):
            got += link.recv(4_096)
        is_so("what is sent", got[:len(wanted)], wanted)
        return link, got

    client = node.client()
    is_so("issue", client.ask("issue deposit 3"), "applied +1:1")
    hear(greeting(1, 2) + call(1, 1, 0, [3]))[0].close()
    # the call wasn't confirmed, so it comes again
    link, got = hear(greeting(1, 2) + call(1, 1, 0, [3]))
    peer = connected(node.peer_port(2))
    peer.sendall(H + ack(1, 1) + request(0, 1, 1, [4]) + request(0, 2, 1, [3]))
    wanted = (verdict(0, 1, 2, number(0, 1)), verdict(0, 2, 0, number(1, 4)), call(0, 1, 1, [3], [1, 0]))
    while not all(frame in got for frame in wanted):
        got += link.recv(4_096)
    is_so("stop", client.ask("stop"), "stopping")
    while piece := link.recv(4_096):
        got += piece
    is_so("the farewell", got[-1:], BYE)
    node.stopped()
    server.close()
