#!/usr/bin/env python3
"""Station 1 of a scenario in plain Python: an own kernel, by docs/FORMATS.md and docs/RULES.md alone.

    station.py SCENARIO LOG ANSWERS [copies | message | queue]

Process 1.1 writes a page of the page server 2.1 and reads it back. Process 1.2 hears what comes to it and replies.
LOG becomes what `vkernel join` reads, ANSWERS has what each event was answered, a line an event. With a third
word the kernel has a fault: it looks for no copies, hands out a wrong message, or serves a queue from its wrong end.
"""
import socket
import struct
import sys
import time

HOST, LAST = 1, 2**63 - 1
SEND, REPLY, PENDING, NEGATIVE = 1, 2, 3, 4
NONE = bytes(32)


class Process:
    def __init__(self, pid, size):
        self.pid, self.memory, self.sends, self.answer = pid, bytearray(size), 0, None
        self.queue = []  # the senders whose messages wait, in the order in which they came
        self.waits = None  # "receive", or the Send in which it is blocked


class Send:
    """A Send to another station: its packet, when and how often it went out since the other side was last heard."""

    def __init__(self, target, message, packet):
        self.target, self.message, self.packet, self.since, self.rounds = target, message, packet, 0, 1


class Alien:
    """A sender of another station: which of its Sends was taken in, and what it was replied."""

    def __init__(self, number, target, message):
        self.number, self.target, self.message, self.taken, self.reply = number, target, message, False, None


class Station:
    def __init__(self, sizes, times, log, answers, fault):
        self.processes = {pid: Process(pid, size) for pid, size in sizes.items()}
        self.tries, self.interval, self.life = times
        self.log, self.answers, self.fault = log, answers, fault
        self.aliens, self.tick, self.number, self.event, self.frames = {}, 0, 0, 0, []

    def enter(self, line, came=0):
        """Begins an event: it has the next number, which is above all that came."""
        print(line, file=self.log)
        self.event, self.number, self.frames = self.event + 1, max(self.number, came) + 1, []

    def give(self, answer):
        """Ends an event: tells its answer, and gives the frames that are to go out."""
        print(answer, file=self.answers)
        return self.frames

    def emit(self, host, packet):
        head = struct.pack(">2sHHQQQH", b"VK", HOST, host, self.tick, self.number, self.event, len(self.frames) + 1)
        self.frames.append((host, head + packet))

    def tell(self, kind, sender, number, tail=b""):
        """Answers the Send of an alien, in the name of its target."""
        packet = struct.pack(">B4s4sQ", kind, packed(self.aliens[sender].target), packed(sender), number) + tail
        self.emit(sender[0], packet)
        return packet

    def take(self, process):
        """Where the process waits in a receive and a message is there, that is its answer."""
        if process.waits != "receive" or not process.queue:
            return
        sender = process.queue.pop(-1 if self.fault == "queue" else 0)
        self.aliens[sender].taken, process.waits = True, None
        message = self.aliens[sender].message
        if self.fault == "message":
            message = bytes([message[0] ^ 0xFF]) + message[1:]
        process.answer = f"ok {dotted(sender)} {spelled(message)}"

    def call(self, pid, call):
        self.enter(f"call {dotted(pid)} {call}")
        kind, *words = call.split()
        return self.give(getattr(self, f"call_{kind}")(self.processes[pid], *words))

    def call_store(self, process, start, data):
        process.memory[int(start):int(start) + len(data) // 2] = bytes.fromhex(data)
        return "ok"

    def call_load(self, process, start, count):
        return "ok " + bytes(process.memory[int(start):int(start) + int(count)]).hex()

    def call_receive(self, process):
        process.waits = "receive"
        self.take(process)
        return "begun"

    def call_send(self, process, target, word):
        message = message_of(word)
        process.sends += 1
        start, length = segment(message)
        part = bytes(process.memory[start:start + min(length, 512)]) if message[0] & 1 else b""
        to = pid_of(target)
        packet = struct.pack(">B4s4sQ", SEND, packed(process.pid), packed(to), process.sends) + message + part
        process.waits = Send(to, message, packet)
        process.waits.since = self.tick
        self.emit(to[0], packet)
        return "begun"

    def call_reply(self, process, word, to):
        sender = pid_of(to)
        alien = self.aliens[sender]
        alien.reply = self.tell(REPLY, sender, alien.number, message_of(word) + bytes(6))
        return "ok"

    def collect(self, pid):
        self.enter(f"collect {dotted(pid)}")
        process = self.processes[pid]
        answer, process.answer = process.answer, None
        self.give(answer or "notyet")
        return answer

    def turn(self):
        """A tick: what was not answered for an interval goes out again, or fails."""
        self.enter("tick")
        self.tick += 1
        for process in self.processes.values():
            work = process.waits
            if isinstance(work, Send) and self.tick == work.since + self.interval:
                if work.rounds == self.tries:
                    process.waits, process.answer = None, "timedout"
                else:
                    work.since, work.rounds = self.tick, work.rounds + 1
                    self.emit(work.target[0], work.packet)
        return self.give(f"now {self.tick}")

    def hear(self, data):
        """A frame that came: what opens is an event, and what is too old changes nothing."""
        if len(data) < 33 or data[:2] != b"VK":
            return []
        source, host, stamp, number, _, _ = struct.unpack(">HHQQQH", data[2:32])
        if number >= LAST or host not in (HOST, 65535):
            return []
        self.enter(f"frame {data.hex()}", number)
        if stamp + self.life < self.tick:
            return self.give("old")
        kind, sender, target, count = struct.unpack(">B4s4sQ", data[32:49])
        sender, target, rest = unpacked(sender), unpacked(target), data[49:]
        if kind == SEND:
            self.heard_send(sender, target, count, rest[:32])
        else:
            self.heard_answer(kind, self.processes.get(target), sender, count, rest)
        return self.give("taken")

    def heard_send(self, sender, target, number, message):
        alien = self.aliens.get(sender)
        if alien and number < alien.number:
            return
        if alien and number == alien.number and self.fault != "copies":
            if alien.reply:
                self.emit(sender[0], alien.reply)
            else:
                self.tell(PENDING, sender, number)
            return
        self.aliens[sender] = Alien(number, target, message)
        self.processes[target].queue.append(sender)
        self.take(self.processes[target])

    def heard_answer(self, kind, process, sender, number, rest):
        work = process and process.waits
        if not isinstance(work, Send) or number != process.sends or sender != work.target:
            return
        if kind == PENDING:
            work.since, work.rounds = self.tick, 0
        elif kind == NEGATIVE:
            process.waits, process.answer = None, "noprocess"
        elif kind == REPLY:
            place, count = struct.unpack(">IH", rest[32:38])
            process.memory[place:place + count] = rest[38:]
            process.waits, process.answer = None, f"ok {spelled(rest[:32])}"


def pid_of(word):
    return tuple(int(number) for number in word.split("."))


def dotted(pid):
    return f"{pid[0]}.{pid[1]}"


def packed(pid):
    return struct.pack(">HH", *pid)


def unpacked(data):
    return struct.unpack(">HH", data)


def message_of(word):
    return bytes.fromhex(word.replace("-", "")).ljust(32, b"\0")


def spelled(message):
    return message.rstrip(b"\0").hex() or "-"


def segment(message):
    return struct.unpack(">II", message[24:32])


def granted(access, kind, page, start, count):
    """The word of a page request that lends a part of memory: 1 lets it be read, 2 written."""
    return spelled(struct.pack(">BBHI", access, kind, 0, page) + bytes(16) + struct.pack(">II", start, count))


def page_client():
    """What 1.1 calls: a page is written, read into another place, and looked at there."""
    yield "store 0 " + "2a" * 512
    yield "send 2.1 " + granted(1, 2, 3, 0, 512)
    yield "send 2.1 " + granted(2, 1, 3, 512, 512)
    yield "load 512 512"


def echo_server():
    """What 1.2 calls: it replies to each sender with the last bytes of what it said."""
    while True:
        _, sender, word = (yield "receive").split()
        yield f"reply {word} {sender}"


def main(scenario, log, answers, fault=None):
    lines = [line.split() for line in open(scenario)]
    times = next([int(it) for it in words[1:]] for words in lines if words[0] == "times")
    sizes = {pid_of(words[1]): int(words[2]) for words in lines if words[0] == "process" and pid_of(words[1])[0] == HOST}
    ports = {int(words[1]): int(words[2]) for words in lines if words[0] == "port"}
    rounds = next(int(words[1]) for words in lines if words[0] == "ticks")
    wire = socket.socket(socket.AF_INET, socket.SOCK_DGRAM)
    wire.bind(("127.0.0.1", ports[HOST]))
    with open(log, "w") as log, open(answers, "w") as answers:
        for words in [["vkernel", "node", "1"], *(it for it in lines if it[0] in ("times", "process")), ["station", str(HOST)]]:
            print(*words, file=log)
        log.flush()
        serve(Station(sizes, times, log, answers, fault), wire, ports, rounds)


def serve(station, wire, ports, rounds):
    """Goes on until as many ticks were made; all begins with the first frame, which comes within 30 seconds."""
    send = lambda frames: [wire.sendto(data, ("127.0.0.1", ports[host])) for host, data in frames]
    wire.settimeout(30)
    data, begins, programs, answer = wire.recv(2048), time.monotonic(), {(1, 1): page_client()}, {}
    wire.settimeout(0.001)
    while station.tick < rounds:
        send(station.hear(data))
        while station.tick < rounds and time.monotonic() - begins > station.tick / 1000:
            send(station.turn())
        # (1.2 begins when the messages of 2.2 and of 2.3 are there, so that its queue has an order)
        if (1, 2) not in programs and {(2, 2), (2, 3)} <= set(station.processes[1, 2].queue):
            programs[1, 2] = echo_server()
        for pid, program in programs.items():
            go_on(station, pid, program, answer, send)
        try:
            data = wire.recv(2048)
        except TimeoutError:
            data = b""


def go_on(station, pid, program, answer, send):
    """Makes the calls of a process as far as they are answered."""
    process = station.processes[pid]
    while process.waits is None:
        if process.answer:
            answer[pid] = station.collect(pid)
        call = next(program, None) if pid not in answer else program.send(answer.pop(pid))
        if call is None:
            process.waits = "end"
            return
        send(station.call(pid, call))


if __name__ == "__main__":
    main(*sys.argv[1:])
