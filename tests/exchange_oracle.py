#!/usr/bin/env python3
"""Works out what the program `exchange` must print, from paper 01 and Algorithms 1 to 3 of document 001.

  exchange_oracle.py            write crates/exchange/stdout
  exchange_oracle.py --check    fail if crates/exchange/stdout is not what this script works out

Nothing here is taken from the crates: servers and clients (01: keepers, desks) are 01's sentences, and every message goes over a channel
(01: wire), first in first out. A line for each message when it is put on a channel, and a line for each outcome. First one client writes,
reads, writes and reads, and then two clients work at once, each with f = 0 and n = 1 and with f = 1 and n = 4; then both once more with
f = 1 and n = 5, where one server is to spare.
"""
import collections
import pathlib
import sys

STDOUT = pathlib.Path(__file__).resolve().parent.parent / "crates" / "exchange" / "stdout"
GET_INFO, INFO, DONE, WRITE_INFO, FWD, WRITE_ACK = range(1, 7)
SET_SIZE = 4
CLIENTS = 2

Pair = collections.namedtuple("Pair", "counter client entry")
START = Pair(0, 0, 0)


def stamp(pair):
    return pair.counter, pair.client


def licence(year, month, day, copies, state):
    """Forty bits, most significant first: year 12, month 4, day 5, copies 16, state 3."""
    return int(f"{year:012b}{month:04b}{day:05b}{copies:016b}{state:03b}", 2)


def packed(kind, tag=0, pair=START):
    """Eleven bytes: kind 4 bits, tag 20, counter 20, client 4, entry 40; a field not used is zero."""
    bits = f"{kind:04b}{tag:020b}{pair.counter:020b}{pair.client:04b}{pair.entry:040b}"
    return int(bits, 2).to_bytes(11, "big")


def unpacked(message):
    bits = f"{int.from_bytes(message, 'big'):088b}"
    kind, tag, counter, client, entry = (int(bits[a:b], 2) for a, b in ((0, 4), (4, 24), (24, 44), (44, 48), (48, 88)))
    return kind, tag, Pair(counter, client, entry)


class Server:
    """Algorithm 3: one pair, and the clients that read."""

    def __init__(self):
        self.pair, self.readers = START, set()

    def take(self, client, message):
        """The clients that it sends to, each with its message, in order."""
        kind, tag, pair = unpacked(message)
        if kind == GET_INFO:
            self.readers.add(client)
            return [(client, packed(INFO, tag, self.pair))]
        if kind == DONE:
            self.readers.discard(client)
            return []
        if stamp(pair) > stamp(self.pair):
            self.pair = pair
        forwards = [(reader, packed(FWD, 0, pair)) for reader in sorted(self.readers)]
        return forwards + [(client, packed(WRITE_ACK, 0, Pair(pair.counter, 0, 0)))]


class Client:
    """Algorithms 1 and 2. What it sends goes to every server."""

    def __init__(self, number, f, n):
        self.number, self.f, self.n = number, f, n
        self.phase, self.reads = "idle", 0

    def start(self, entry=None):
        assert self.phase == "idle"
        self.phase, self.entry = "reading", entry
        self.reads += 1
        self.noted, self.sets = {}, collections.defaultdict(set)
        return [packed(GET_INFO, self.reads)]

    def counts(self, pair):
        below = sum(stamp(pair) >= noted for noted in self.noted.values())
        holders = sum(pair in pairs for pairs in self.sets.values())
        return below >= 2 * self.f + 1 and holders >= self.f + 1

    def take(self, server, message):
        """What goes to every server, and the outcome."""
        kind, tag, pair = unpacked(message)
        if kind == WRITE_ACK:
            return self.acknowledged(server, pair.counter)
        if self.phase != "reading" or kind == INFO and (tag != self.reads or server in self.noted):
            return [], None
        if kind == INFO:
            self.noted[server] = stamp(pair)
        self.sets[server] = set(sorted(self.sets[server] | {pair})[-SET_SIZE:])
        counting = [p for pairs in self.sets.values() for p in pairs if self.counts(p)]
        if len(self.noted) < self.n - self.f or not counting:
            return [], None
        return self.chosen(max(counting))

    def chosen(self, pair):
        if self.entry is None:
            self.phase = "idle"
            return [packed(DONE)], ("READ", pair)
        self.phase, self.acks = "storing", set()
        self.own = Pair(pair.counter + 1, self.number, self.entry)
        return [packed(DONE), packed(WRITE_INFO, 0, self.own)], None

    def acknowledged(self, server, counter):
        if self.phase != "storing" or counter != self.own.counter:
            return [], None
        self.acks.add(server)
        if len(self.acks) < self.n - self.f:
            return [], None
        self.phase = "idle"
        return [], ("WROTE", self.own)


class Exchange:
    def __init__(self, title, f, n):
        self.lines = [f"{title}, f = {f}, n = {n}"]
        self.servers = {k: Server() for k in range(1, n + 1)}
        self.clients = {d: Client(d, f, n) for d in range(1, CLIENTS + 1)}
        self.up, self.down = collections.defaultdict(collections.deque), collections.defaultdict(collections.deque)

    def put(self, client, messages):
        for message in messages:
            for k in self.servers:
                self.lines.append(f"client {client} to server {k}: {message.hex().upper()}")
                self.up[client, k].append(message)

    def read(self, client):
        self.put(client, self.clients[client].start())

    def write(self, client, entry):
        self.put(client, self.clients[client].start(entry))

    def server_takes(self, k, client):
        """Server k takes the oldest message of a client; then the clients take what it sent, in order."""
        sent = self.servers[k].take(client, self.up[client, k].popleft())
        for to, message in sent:
            self.lines.append(f"server {k} to client {to}: {message.hex().upper()}")
            self.down[k, to].append(message)
        for to, _ in sent:
            self.client_takes(to, k)

    def client_takes(self, client, k):
        messages, outcome = self.clients[client].take(k, self.down[k, client].popleft())
        self.put(client, messages)
        if outcome:
            word, pair = outcome
            self.lines.append(f"client {client} {word} {pair.counter} {pair.client} {pair.entry:010X}")


    def each(self, client, servers, times=1):
        """Each of the servers takes a message of the client, one server after the other; as often as said."""
        for _ in range(times):
            for k in servers:
                self.server_takes(k, client)


def one_client(f, n):
    """Client 1 alone; every server takes every message."""
    x = Exchange("one client", f, n)
    for year in (2024, 2028):
        x.write(1, licence(year, 2, 29, 40, 1))
        x.each(1, x.servers, times=3)  # GET_INFO, DONE, WRITE_INFO
        x.read(1)
        x.each(1, x.servers, times=2)  # GET_INFO, DONE
    return x.lines


def two_clients(f, n):
    """With f = 1 the last server takes nothing: n - f servers work."""
    x, working = Exchange("two clients", f, n), range(1, n - f + 1)
    x.write(1, licence(2024, 2, 29, 40, 1))
    x.each(1, working, times=3)  # GET_INFO, DONE, WRITE_INFO
    x.read(1)
    x.each(1, working, times=2)  # GET_INFO, DONE
    x.read(2)
    x.each(2, working)  # GET_INFO; its DONE stays on the channels
    x.write(1, licence(2028, 2, 29, 40, 1))
    x.each(1, working, times=2)  # GET_INFO, DONE
    x.read(2)
    x.each(1, [1])  # WRITE_INFO reaches server 1, which forwards it
    x.each(2, working, times=2)  # the late DONE, GET_INFO
    x.each(1, working[1:])  # WRITE_INFO reaches the others
    x.each(2, working)  # DONE
    return x.lines


def main():
    settings = [(0, 1), (1, 4)]
    runs = [scenario(f, n) for scenario in (one_client, two_clients) for f, n in settings]
    runs += [scenario(1, 5) for scenario in (one_client, two_clients)]
    text = "".join(line + "\n" for lines in runs for line in lines)
    if sys.argv[1:] == ["--check"]:
        if STDOUT.read_text() != text:
            sys.exit("exchange_oracle: crates/exchange/stdout is not what 01 gives")
        print("exchange_oracle: crates/exchange/stdout is right")
    else:
        STDOUT.write_text(text)


if __name__ == "__main__":
    main()
