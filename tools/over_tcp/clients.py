"""What clients say, and what they are answered."""
import socket
import time

from over_tcp.objects import BANK
from over_tcp.talking import HOST, Node, free_bases, is_so, until


def four_lines(program, _place):
    """The four lines of a client who is alone."""
    node = Node(program, 1, free_bases(1), BANK)
    client = node.client()
    client.send("issue deposit 5\nshow balance\nbogus\nquit\n")
    is_so("all of it", client.rest(), b"applied +1:1\nvalue 5\nrefused: not a line\nbye\n")
    is_so("the entries", node.stop(), 3)


def two_clients(program, _place):
    """A client is served while another one's link stands idle, and each reads what the other wrote."""
    node = Node(program, 1, free_bases(1), BANK)
    first, second = node.client(1), node.client(2)
    is_so("the second", second.ask("issue deposit 7"), "applied +1:1")
    is_so("the first", first.ask("issue deposit 5"), "applied +1:2")
    is_so("show", second.ask("show balance"), "value 12")
    is_so("quit", (second.ask("quit"), second.rest()), ("bye", b""))
    is_so("too much", first.ask("issue withdraw 13"), "impermissible invariant 0")
    is_so("all of it", first.ask("issue withdraw 12"), "applied +0:1")
    is_so("log", first.ask("log"), "log 1:1 1:2 0:1")
    is_so("stop", (first.ask("stop"), first.rest()), ("stopping", b""))
    is_so("the entries", node.stopped(), 7)


def each_line(program, place):
    """Each line of a client with each of its replies, and which of them are entries."""
    node = Node(program, 1, free_bases(1), place.market)
    client, entries = node.client(), 0
    for line, reply, enters in (
        ("issue deposit 5", "applied +2:1", 1), ("  issue   deposit  6 ", "applied +2:2", 1), ("show balance", "value 11", 1),
        ("issue withdraw 12", "impermissible invariant 1", 1), ("issue withdraw 11", "applied +0:1", 1),
        ("issue fill 7 3", "applied +3:1", 1), ("show stock 7", "value 3", 1), ("show stock 8", "value 0", 1),
        ("issue take 7 4", "impermissible guard 0", 1), ("issue take 7 3", "applied +1:1", 1), ("show stock 7", "value 0", 1),
        ("issue enroll 1 2", "impermissible invariant 0", 1), ("issue addStudent 1", "applied +4:1", 1),
        ("issue enroll 1 2", "applied +5:1", 1), ("issue enroll 1 1", "applied +5:2", 1),
        ("verdict 0 1", "unknown", 1), ("verdict 32 1", "unknown", 1), ("verdict 0 65537", "unknown", 1),
        ("verdict 18446744073709551615 18446744073709551615", "unknown", 1), ("counts", "counts 1 1 2 1 1 2", 1),
        ("log", "log 2:1 2:2 0:1 3:1 1:1 4:1 5:1 5:2", 1),
        # arguments that don't fit are the replica's to refuse, and all else is refused before
        ("issue deposit", "refused: bad arguments", 1), ("issue deposit 1 2", "refused: bad arguments", 1),
        ("issue deposit 4294967296", "refused: bad arguments", 1), ("issue addStudent 18446744073709551615", "applied +4:2", 1),
        ("issue nothing 1", "refused: unknown name", 0), ("issue balance 1", "refused: unknown name", 0),
        ("show nothing", "refused: unknown name", 0), ("show student", "refused: unknown name", 0),
        ("rows nothing", "refused: unknown name", 0), ("rows balance", "refused: unknown name", 0),
        ("show balance 1", "refused: bad key", 0), ("show stock", "refused: bad key", 0),
        ("", "refused: not a line", 0), ("   ", "refused: not a line", 0), ("bogus", "refused: not a line", 0),
        ("issue", "refused: not a line", 0), ("issue deposit x", "refused: not a line", 0), ("issue deposit 01", "refused: not a line", 0),
        ("issue deposit 18446744073709551616", "refused: not a line", 0), ("issue deposit 1 2 3 4 5 6 7", "refused: not a line", 0),
        ("issue\tdeposit 1", "refused: not a line", 0), ("log 1", "refused: not a line", 0), ("counts 1", "refused: not a line", 0),
        ("verdict 0", "refused: not a line", 0), ("quit 1", "refused: not a line", 0), ("Stop", "refused: not a line", 0),
        ("# nothing", "refused: not a line", 0), ("tick 1", "refused: not a line", 0), ("issue deposit 1\r", "refused: not a line", 0),
    ):
        is_so(f"reply to {line!r}", client.ask(line), reply)
        entries += enters
    is_so("rows", (client.rows("enrolled"), client.rows("student")), (["1 1", "1 2"], ["1", "18446744073709551615"]))
    is_so("record", client.record(), ["call 2 1 deposit 5", "call 2 2 deposit 6", "call 0 1 withdraw 11", "call 3 1 fill 7 3", "call 1 1 take 7 3",
                                      "call 4 1 addStudent 1", "call 5 1 enroll 1 2", "call 5 2 enroll 1 1", "call 4 2 addStudent 18446744073709551615"])
    is_so("record with a word more", client.ask("record 1"), "refused: not a line")
    is_so("the entries", node.stop(), entries + 4)


def verdicts(program, place):
    """A request is pending without its leader, and then has its verdict; two groups have two leaders."""
    bases = free_bases(2)
    two = Node(program, 2, bases, place.market)
    asking = two.client()
    is_so("requests", asking.all(["issue withdraw 2", "issue withdraw 9", "issue take 7 1"]), ["forwarded 0:1", "forwarded 0:2", "impermissible guard 0"])
    is_so("without a leader", asking.all(["verdict 0 1", "verdict 0 3"]), ["pending", "unknown"])
    one = Node(program, 1, bases, place.market)
    asking.until("verdict 0 2", "refused invariant 1")
    is_so("nothing to withdraw", asking.ask("verdict 0 1"), "refused invariant 1")
    leader = one.client()
    is_so("at the leader", leader.all(["issue deposit 5", "issue fill 7 3", "issue take 7 4"]), ["applied +2:1", "applied +4:1", "forwarded 1:1"])
    leader.until("verdict 1 1", "refused guard 0")
    asking.until("show stock 7", "value 3")
    is_so("requests again", (asking.ask("issue withdraw 5"), leader.ask("issue take 7 3")), ("forwarded 0:3", "forwarded 1:2"))
    asking.until("verdict 0 3", "applied 1")
    leader.until("verdict 1 2", "applied 1")
    for client in (asking, leader):
        client.until("counts", "counts 1 1 1 0 1 0 0 0 0 0")
        is_so("what is left", client.all(["show balance", "show stock 7"]), ["value 0", "value 0"])
    one.stop()
    two.stop()


def lines_in_pieces(program, _place):
    node = Node(program, 1, free_bases(1), BANK)
    client = node.client()
    is_so("many lines in one write", client.all(["issue deposit 1"] * 500 + ["show balance"]), [f"applied +1:{k}" for k in range(1, 501)] + ["value 500"])
    for byte in b"issue deposit 6\nshow ":
        client.send(bytes([byte]))
        time.sleep(0.002)
    is_so("a line in many writes", client.line(), "applied +1:501")
    time.sleep(0.5)
    client.send("balance")
    is_so("a pause in a line", client.ask(""), "value 506")
    is_so("4,095 bytes and an end", client.ask("x" * 4_095), "refused: not a line")
    is_so("a line of 4,095 bytes that says something", client.ask("show balance".ljust(4_095)), "value 506")
    for text in (b"y" * 4_096, b"y" * 4_096 + b"\n", b"y" * 4_095 + b"\0\n", b"show balance\n" + b"y" * 4_096):
        client = node.client(2)
        client.send(text)
        is_so(f"{len(text)} bytes without an end", client.rest(), b"value 506\n" if text[:1] == b"s" else b"")
    client = node.client(2)
    client.send("show balance\nquit\nshow balance\n")
    is_so("nothing after quit", client.rest(), b"value 506\nbye\n")
    client = node.client(2)
    client.send("issue deposit 9")
    client.socket.shutdown(socket.SHUT_WR)
    is_so("no line without its end", client.rest(), b"")
    client = node.client(2)
    client.send(bytes(range(256)) + b"\n" + bytes([255] * 1_000) + b"\n\0\n")
    is_so("bytes that are no text", [client.line() for _ in range(4)], ["refused: not a line"] * 4)
    is_so("the value", client.ask("show balance"), "value 506")
    is_so("the entries", node.stop(), 500 + 1 + 1 + 1 + 1 + 1 + 1 + 1 + 1)


def lines_in_rounds(program, _place):
    """Many lines in one write, among them some that enter nothing, lists, a quit and a stop: each is answered in its turn."""
    node = Node(program, 1, free_bases(1), BANK)
    client, lines, replies = node.client(), [], []
    for k in range(1, 301):
        lines += ["issue deposit 1", "bogus", "show balance", *(["counts"] if k % 7 == 0 else []), *(["issue withdraw 1000"] if k % 50 == 0 else [])]
        replies += [f"applied +1:{k}", "refused: not a line", f"value {k}", *([f"counts 0 {k}"] if k % 7 == 0 else []), *(["impermissible invariant 0"] if k % 50 == 0 else [])]
    is_so("many lines", client.all(lines), replies)
    client.send("issue deposit 1\n" * 70 + "quit\n" + "issue deposit 1\n" * 70)
    is_so("nothing after a quit", client.rest(), b"".join(b"applied +1:%d\n" % k for k in range(301, 371)) + b"bye\n")
    client, entries = node.client(2), 300 + 300 + 300 // 7 + 6 + 70
    client.send("show balance\n" * 70 + "issue deposit 1\n" + "stop\n" + "issue deposit 1\n" * 70)
    is_so("nothing after a stop", client.rest(), b"value 370\n" * 70 + b"applied +1:371\nstopping\n")
    is_so("the entries", node.stopped(), entries + 70 + 1 + 1)


def links_that_are_reset(program, _place):
    """A client that goes away after so many replies: what it sent is entered in its order, as far as it came, and nothing else."""
    node = Node(program, 1, free_bases(1), BANK)
    sent = 0
    for taken in (0, 1, 2, 3, 63, 64, 65, 100):
        client = node.client()
        client.send("issue deposit 1\n" * 100 + "show balance\n")
        first = [client.line() for _ in range(taken)]
        client.reset()
        other = node.client(2)
        value = int(other.ask("show balance").split()[1])
        is_so("at least what was answered", sent + taken <= value <= sent + 100, True)
        until("all that came", lambda: len(other.ask("log").split()) - 1 >= value, True)
        is_so("in their order", first, [f"applied +1:{sent + k}" for k in range(1, taken + 1)])
        other.close()
        again = node.client(1)
        sent = int(again.ask("show balance").split()[1])
        is_so("one call for each", len(again.ask("log").split()) - 1, sent)
        again.close()
    node.stop()


def deaf_client(port):
    """A link with little room, some eighty thousand bytes, for replies that nobody takes."""
    link = socket.socket()
    link.setsockopt(socket.SOL_SOCKET, socket.SO_RCVBUF, 4_096)
    link.setsockopt(socket.IPPROTO_TCP, socket.TCP_MAXSEG, 536)
    link.settimeout(10)
    link.connect((HOST, port))
    return link


def clients_that_wait(program, _place):
    """Four are served beside each other; a fifth waits until one goes. A reset and a client that takes no reply end nothing else."""
    node = Node(program, 1, free_bases(1), BANK)
    clients = [node.client(worker) for worker in (1, 2, 3, 4)]
    for k in range(1, 4):
        is_so("each", [client.ask("issue deposit 1") for client in clients], [f"applied +1:{4 * k + at}" for at in range(-3, 1)])
    fifth = node.client(1)
    fifth.send("show balance\n")
    fifth.socket.settimeout(0.5)
    try:
        is_so("a fifth", fifth.line(), "nothing yet")
    except TimeoutError:
        pass
    clients[0].close()
    fifth.socket.settimeout(10)
    is_so("the fifth is served", fifth.line(), "value 12")
    clients[2].close()
    clients[1].send("show balance\n" * 50)
    clients[1].reset()
    is_so("after a reset", node.client(2).ask("show balance"), "value 12")
    deaf = deaf_client(node.base + 11)
    deaf.sendall(b"\n" * 16_384)
    is_so("others go on", clients[3].ask("show balance"), "value 12")
    until("the deaf one's port serves another", lambda: node.client(3).ask("show balance"), "value 12")
    deaf.close()
    clients[3].close()
    node.stop()


def what_is_full(program, place):
    """A lane, a group's requests and a journal take so much, and then say so."""
    [alone, *bases] = free_bases(3)
    node = Node(program, 1, [alone], BANK)
    client, started = node.client(), time.monotonic()
    client.flood("show balance", 1_000)
    if time.monotonic() - started > 0.05:
        node.stop()
        return "a slow build, which isn't given 2,000,000 lines"
    is_so("the last entry", (client.flood("show balance", 2_000_000 - 1_000)[-1], client.ask("show balance")), ("value 0", "full"))
    is_so("a full journal", client.all(["issue deposit 1", "log", "bogus", "verdict 0 1"]), ["full", "full", "refused: not a line", "full"])
    is_so("a stop is taken", node.stop(), 2_000_001)
    one = Node(program, 1, bases, place.market)
    client = one.client()
    is_so("a lane", (client.flood("issue withdraw 0", 65_536)[-1], client.ask("issue withdraw 0")), ("applied +0:65536", "refused: lane full"))
    is_so("what isn't asked again", client.all(["issue withdraw 1", "issue withdraw", "issue deposit 1"]), ["refused: lane full", "refused: bad arguments", "applied +2:1"])
    is_so("requests", (client.flood("issue take 1 0", 65_536)[-1], client.ask("issue take 1 0")), ("forwarded 1:65536", "refused: requests full"))
    two = Node(program, 2, bases, place.market)
    client = two.client()
    is_so("a request to a full lane", client.ask("issue withdraw 0"), "forwarded 0:1")
    client.until("verdict 0 1", "refused full")
    one.stop()
    two.stop()
