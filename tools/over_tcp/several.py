"""Several nodes, and links between them that are cut."""
import os
import random
import subprocess
import time

from over_tcp.objects import BANK
from over_tcp.talking import Node, Relay, free_bases, is_so, until


def three_nodes(program, _place):
    bases = free_bases(3)
    nodes = [Node(program, me, bases, BANK) for me in (1, 2, 3)]
    started = time.monotonic()
    one, two, three = (node.client() for node in nodes)
    is_so("issue at 1", one.ask("issue deposit 5"), "applied +1:1")
    three.until("show balance", "value 5")
    is_so("issue at 3", three.ask("issue withdraw 2"), "forwarded 0:1")
    three.until("verdict 0 1", "applied 1")
    three.until("show balance", "value 3")
    is_so("issue at 2", two.ask("issue deposit 7"), "applied +2:1")
    for client in (one, two, three):
        client.until("counts", "counts 1 1 1 0")
        is_so("the value", client.ask("show balance"), "value 10")
        is_so("the calls", sorted(client.ask("log").split()), ["0:1", "1:1", "2:1", "log"])
    is_so("within 5 s", time.monotonic() - started < 5, True)
    for node in nodes:
        node.stop()


def eight_nodes(program, _place):
    """As many as there may be; one leads the withdrawals of all."""
    bases = free_bases(8)
    nodes = [Node(program, me, bases, BANK) for me in range(1, 9)]
    clients = [node.client() for node in nodes]
    for me, client in enumerate(clients, 1):
        is_so("issue", client.all(["issue deposit 2", "issue deposit 3"]), [f"applied +{me}:1", f"applied +{me}:2"])
    for client in clients:
        client.until("show balance", "value 40")
    for client in clients[1:]:
        is_so("request", client.ask("issue withdraw 5"), "forwarded 0:1")
    for client in clients:
        client.until("counts", "counts 7 2 2 2 2 2 2 2 2")
        is_so("the value", client.ask("show balance"), "value 5")
    for client in clients[1:]:
        until("the verdict", lambda client=client: client.ask("verdict 0 1").split()[0], "applied")
    is_so("each has its own number", sorted(client.ask("verdict 0 1") for client in clients[1:]), [f"applied {k}" for k in range(1, 8)])
    for node in nodes:
        node.stop()


class Story:
    """What was issued at which node, so that each log can be played again."""

    def __init__(self, clients, seed):
        self.clients, self.random, self.acts, self.asked = clients, random.Random(seed), {}, []

    def issue(self, at):
        draw = self.random.randrange
        act = self.random.choice((("deposit", draw(9)), ("withdraw", draw(9)), ("fill", draw(3), draw(9)), ("take", draw(3), draw(9)),
                                  ("addStudent", draw(9)), ("enroll", draw(9), draw(3))))
        answer = self.clients[at].ask("issue " + " ".join(map(str, act))).split()
        if answer[0] == "applied":
            self.acts[answer[1][1:]] = act
        elif answer[0] == "forwarded":
            self.asked.append((at, *answer[1].split(":"), act))
        else:
            is_so("the answer", answer[0], "impermissible")

    def settle(self):
        """Waits for every verdict."""
        for at, group, request_number, act in self.asked:
            line = f"verdict {group} {request_number}"
            until(line, lambda at=at, line=line: self.clients[at].ask(line) not in ("pending", "unknown"), True)
            answer = self.clients[at].ask(line).split()
            if answer[0] == "applied":
                self.acts[f"{group}:{answer[1]}"] = act

    def play(self, log):
        """The state after a log, each of whose calls must be permissible where it stands, in the order of its lane."""
        counts, balance, stock, students, enrolled = {}, 0, {}, set(), set()
        for place in log:
            lane, at = place.split(":")
            counts[lane] = counts.get(lane, 0) + 1
            is_so(f"the next call of lane {lane}", int(at), counts[lane])
            match self.acts[place]:
                case ("deposit", a): balance += a
                case ("withdraw", a): balance -= a
                case ("fill", k, a): stock[k] = stock.get(k, 0) + a
                case ("take", k, a): stock[k] = stock.get(k, 0) - a
                case ("addStudent", s): students.add(s)
                case ("enroll", s, c): enrolled.add((s, c))
            is_so(f"what holds after {place}", (balance >= 0, min(stock.values(), default=0) >= 0, {s for s, _ in enrolled} <= students), (True,) * 3)
        return balance, stock, students, enrolled

    def audit(self, program, place, logs):
        """Each node records the calls of its log with their acts, and the program's auditor takes what they record."""
        lines = ["hamsaz audit 1", f"replicas {len(logs)}"]
        for me, (client, log) in enumerate(zip(self.clients, logs), 1):
            record = client.record()
            is_so("a record", record, [" ".join(["call", *at.split(":"), *map(str, self.acts[at])]) for at in log])
            lines += [f"replica {me}", *record]
        records = os.path.join(place.folder, "records")
        with open(records, "w", encoding="ascii") as file:
            file.write("\n".join([*lines, "end"]) + "\n")
        done = subprocess.run([program, "audit", place.market, records], stdout=subprocess.PIPE, stdin=subprocess.DEVNULL)
        is_so("the audit", (done.returncode, done.stdout.decode()), (0, f"ok {len(self.acts)}\n"))

    def agree(self, program, place):
        """All nodes have all calls, each in an order that can be, and the state that comes of it."""
        self.settle()
        logs = []
        for client in self.clients:
            until("all calls", lambda client=client: len(client.ask("log").split()) - 1, len(self.acts))
            log = client.ask("log").split()[1:]
            logs.append(log)
            is_so("the calls", sorted(log), sorted(self.acts))
            balance, stock, students, enrolled = self.play(log)
            is_so("the values", client.all(["show balance"] + [f"show stock {k}" for k in range(3)]), [f"value {balance}"] + [f"value {stock.get(k, 0)}" for k in range(3)])
            is_so("the rows", (client.rows("student"), client.rows("enrolled")), ([f"{s}" for s in sorted(students)], [f"{s} {c}" for s, c in sorted(enrolled)]))
        self.audit(program, place, logs)


def links_that_are_cut(program, place):
    """The links between nodes 1 and 3 are cut, for a while and again and again: all three agree, and their logs are audited."""
    b1, b2, b3, to_1, to_3 = free_bases(5)
    relays = [Relay(to_3 + 1, b3 + 1), Relay(to_1 + 3, b1 + 3)]
    nodes = [Node(program, me, bases, place.market) for me, bases in ((1, [b1, b2, to_3]), (2, [b1, b2, b3]), (3, [to_1, b2, b3]))]
    # a node listens at its own base, whatever the others take for it
    story = Story([node.client() for node in nodes], 1)
    for k in range(30):
        story.issue(k % 3)
    story.agree(program, place)
    for relay in relays:
        relay.cut()
    one, two, three = story.clients
    value = int(one.ask("show balance").split()[1])
    is_so("what is decided meanwhile", one.ask("issue deposit 1000").split()[0], "applied")
    story.acts[one.ask("log").split()[-1]] = ("deposit", 1000)
    two.until("show balance", f"value {value + 1000}")
    answer = two.ask("issue addStudent 77").split()
    story.acts[answer[1][1:]] = ("addStudent", 77)
    until("2 reaches 3", lambda: "77" in three.rows("student"), True)
    is_so("what 3 hasn't heard", three.ask("show balance"), f"value {value}")
    for k in range(45):
        story.issue(k % 3)
    answer = three.ask("issue withdraw 0")
    is_so("3 asks 1", answer[:12], "forwarded 0:")
    story.asked.append((2, "0", answer[12:], ("withdraw", 0)))
    time.sleep(0.3)
    is_so("1 can't answer", three.ask("verdict 0 " + answer[12:]), "pending")
    for relay in relays:
        relay.mend()
    story.agree(program, place)
    for k in range(60):
        story.issue(k % 3)
        if k % 12 == 5:
            relays[k % 2].cut()
            relays[k % 2].mend()
    story.agree(program, place)
    for node in nodes:
        node.stop()
    for relay in relays:
        relay.cut()
