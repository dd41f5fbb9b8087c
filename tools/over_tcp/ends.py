"""How nodes begin and end."""
import os
import socket
import subprocess

from over_tcp.objects import BANK, BANK_PLAIN, greeting
from over_tcp.talking import HOST, Node, connected, free_bases, is_so


def ended(program, *words, **more):
    done = subprocess.run([program, "node", *map(str, words)], stdout=more.get("stdout", subprocess.PIPE), stdin=subprocess.DEVNULL, timeout=20)
    return done.returncode, done.stdout


def words_that_are_none(program, _place):
    [base] = free_bases(1)
    for words in ([], [BANK], [BANK, 1], [BANK, 0, base], [BANK, 2, base], [BANK, 1, 1023], [BANK, 1, 65001], [BANK, 1, "02000"],
                  [BANK, 1] + [2000] * 9, [BANK, "x", base], [BANK, 1, base, "y"]):
        status, text = ended(program, *words)
        is_so(f"words {words}", (status, text[:14], text.count(b"\n")), (1, b"usage: hamsaz ", 1))


def objects_that_are_none(program, place):
    [base] = free_bases(1)
    is_so("a missing file", ended(program, place.folder + "/nothing", 1, base), (4, b""))
    is_so("a folder", ended(program, place.folder, 1, base), (4, b""))
    with open(place.folder + "/long", "wb") as file:
        file.write(b" " * (1 << 20) + b" ")
    is_so("a long file", ended(program, place.folder + "/long", 1, base), (7, b""))
    is_so("no object", ended(program, os.path.realpath(__file__), 1, base), (2, b"object refused: not toml\n"))


def ports_that_are_taken(program, _place):
    bases = free_bases(2)
    for port in (*range(bases[0] + 9, bases[0] + 13), bases[0] + 2):
        with socket.create_server((HOST, port)):
            is_so(f"a taken port, {port - bases[0]} above the base", ended(program, BANK, 1, *bases), (9, b""))
    node = Node(program, 1, bases, BANK)
    is_so("a second one", ended(program, BANK, 1, *bases), (9, b""))
    is_so("the first goes on", node.client().ask("show balance"), "value 0")
    is_so("its entries", node.stop(), 2)


def an_output_that_fails(program, _place):
    [base] = free_bases(1)
    with open("/dev/full", "wb") as full:
        is_so("a full device", ended(program, BANK, 1, base, stdout=full)[0], 5)
    node = Node(program, 1, [base], BANK)
    node.process.stdout.close()
    is_so("stop", node.client().ask("stop"), "stopping")
    is_so("nobody reads its end", node.process.wait(timeout=10), 5)


def a_stop_is_all_there_is(program, _place):
    bases = free_bases(8)
    is_so("alone", Node(program, 1, bases[:1], BANK).stop(), 1)
    is_so("the last of eight, and the others never come", Node(program, 8, bases, BANK).stop(worker=1), 1)


def a_stop_ends_all_links(program, _place):
    bases = free_bases(2)
    node = Node(program, 1, bases, BANK_PLAIN)
    idle, asking = node.client(1), node.client(2)
    peer, silent = connected(node.peer_port(2)), connected(node.peer_port(2))
    peer.sendall(greeting(2, 2))
    is_so("before", asking.ask("show balance"), "value 0")
    is_so("stop", node.client(3).ask("stop"), "stopping")
    asking.send("show balance\n")
    is_so("what is asked then", asking.rest() in (b"stopped\n", b""), True)
    is_so("an idle link", idle.rest(), b"")
    is_so("the entries", node.stopped(), 2)
    for link in (peer, silent):
        link.close()
    Node(program, 1, bases, BANK_PLAIN).stop()


def a_kill_loses_all(program, place):
    before = sorted(os.listdir(place.folder))
    bases = free_bases(1)
    node = Node(program, 1, bases, place.market)
    is_so("deposit", node.client().ask("issue deposit 5"), "applied +2:1")
    node.kill()
    node = Node(program, 1, bases, place.market)
    client = node.client()
    is_so("after it", client.all(["show balance", "log", "counts"]), ["value 0", "log", "counts 0 0 0 0 0 0"])
    is_so("its entries", node.stop(), 4)
    is_so("files", sorted(os.listdir(place.folder)), before)
