"""Runs of recording engines over links that lose nothing and have no spread, worked from the rules of a run: the
bytes that each running peer shows as the run ends, and the crashes that ran. A run ends once two peers reported,
or at the first poll at which each peer has a height."""
import heapq

POLL = 25


class Run:
    def __init__(self, peers, fault, crashes, reports, polled=None):
        self.peers, self.default, self.fault, self.crashes = peers, 10, fault, crashes
        self.reports, self.polled, self.links = reports, polled, {}
        self.late = {p for kind, *rest in crashes if kind == "delay" for p in rest[0]}
        self.queue, self.made, self.now = [], 0, 0
        self.starts, self.running = {}, {}
        self.seen, self.ran, self.started, self.entered = [], 0, False, set()
        for peer in peers:
            if peer not in self.late:
                self.start(peer)
        for kind, *rest in crashes:
            if kind == "schedule":
                for time, *action in rest[0]:
                    self.put(time, "act", action)
        for kind, *rest in crashes:
            if kind == "random":
                self.put(rest[0], "tick", rest)
        if polled is not None:
            self.put(POLL, "poll", None)

    def put(self, delay, kind, what):
        heapq.heappush(self.queue, (self.now + delay, self.made, kind, what))
        self.made += 1

    def start(self, peer):
        count = self.starts.get(peer, 0)
        told = [self.peers.index(peer), int(peer in self.late), count, self.fault]
        self.starts[peer] = count + 1
        self.running[peer] = {"birth": self.made, "clock": 0, "bytes": told}
        self.put(0, "started", peer)

    def stop(self, peer, downtime=None):
        if self.running.pop(peer, None) is not None:
            self.ran += 1
            if downtime is not None:
                self.put(downtime, "recover", peer)

    def tick(self, peer):
        engine = self.running[peer]
        engine["clock"] += 1
        sends = peer == 1 and engine["clock"] % 10 == 0
        self.put(1, "timer", (peer, engine["birth"]))
        if sends:
            for to in sorted(self.peers):
                if to != peer and to in self.running:
                    self.put(self.links.get((peer, to), self.default), "message", (peer, to))
        return self.reports.get(peer) == engine["clock"] and self.report(peer)

    def report(self, peer):
        self.seen.append(peer)
        for place, (kind, *rest) in enumerate(self.crashes):
            if kind == "window" and place not in self.entered and rest[0] in self.running:
                if rest[1] <= self.running[rest[0]]["clock"] <= rest[2]:
                    self.entered.add(place)
                    self.stop(rest[0], rest[3])
        if len(set(self.seen)) >= 2:
            return True
        if self.late and not self.started:
            self.started = True
            for late in sorted(self.late):
                self.start(late)
        return False

    def act(self, kind, *rest):
        if kind == "fault":
            self.fault = rest[0]
        elif kind == "heal":
            self.default, self.links = rest[0], {}
        elif kind == "link":
            if rest[0] != rest[1] and {rest[0], rest[1]} <= set(self.peers):
                self.links[rest[0], rest[1]] = rest[2]
        elif kind == "crash":
            self.stop(rest[0])
        elif rest[0] in self.peers:
            self.start(rest[0])

    def one(self):
        self.now, _, kind, what = heapq.heappop(self.queue)
        if kind == "started" and what in self.running:
            self.put(1, "timer", (what, self.running[what]["birth"]))
        elif kind == "timer" and self.running.get(what[0], {}).get("birth") == what[1]:
            return self.tick(what[0])
        elif kind == "message" and what[1] in self.running:
            engine = self.running[what[1]]
            engine["bytes"] += [what[0], engine["clock"]]
        elif kind == "act":
            self.act(*what)
        elif kind == "recover":
            self.start(what)
        elif kind == "tick":
            for peer in sorted(self.running)[: what[2]]:
                self.stop(peer, what[1])
            self.put(what[0], "tick", what)
        elif kind == "poll":
            self.put(POLL, "poll", None)
            high = [e for e in self.running.values() if e["clock"] >= self.polled]
            return len(high) >= len(self.peers)
        return False

    def run(self):
        while not self.one():
            pass
        shown = [self.running[peer] for peer in sorted(self.running)]
        return [engine["bytes"] + [engine["clock"]] for engine in shown], self.ran


SCHEDULE = [
    (5, "fault", 1), (10, "crash", 2), (20, "restart", 2), (30, "heal", 3),
    (35, "link", 1, 2, 7), (45, "heal", 4), (46, "link", 1, 9, 50),
]

if __name__ == "__main__":
    late = [("delay", [3]), ("schedule", SCHEDULE)]
    print(Run([2, 1, 3], 3, late, {1: 15, 2: 45}).run())
    window = [("window", 2, 20, 30, 8), ("delay", [3])]
    print(Run([2, 1, 3], 3, window, {1: 25, 2: 45}).run())
    print(Run([1], 3, [("random", 20, 5, 1)], {}, 14).run())
