#!/usr/bin/python3
"""Strangers at a bus: clients that say nothing, send a byte a second, half a message, too long a line, noise, or never read; 64 links and a 65th.
After each, a good client says Hello and is answered. usage: strangers.py PATH SECONDS_OF_BYTES
It makes at most 70 connections on one Unix socket, and ends by itself. Status 0 where all was as it should be."""
import signal, socket, struct, sys, time

signal.alarm(120)
path = sys.argv[1]
seconds = min(int(sys.argv[2]) if len(sys.argv) > 2 else 3, 30)
LOGIN = b"\0AUTH EXTERNAL 31303030\r\nBEGIN\r\n"
wrong = 0


def pad(data, to):
    return data + b"\0" * (-len(data) % to)


def text(value):
    return struct.pack("<I", len(value)) + value + b"\0"


def message(kind, serial, fields, signature=b"", body=b""):
    all_fields = b""
    for code, type_, value in fields:
        all_fields = pad(all_fields, 8) + bytes([code, 1]) + type_ + b"\0" + text(value)
    if signature:
        all_fields = pad(all_fields, 8) + b"\x08\x01g\0" + bytes([len(signature)]) + signature + b"\0"
    return pad(struct.pack("<cBBBIII", b"l", kind, 0, 1, len(body), serial, len(all_fields)) + all_fields, 8) + body


def bus_call(serial, member, signature=b"", body=b""):
    bus = b"org.freedesktop.DBus"
    return message(1, serial, [(1, b"o", b"/org/freedesktop/DBus"), (2, b"s", bus), (3, b"s", member), (6, b"s", bus)], signature, body)


HELLO = bus_call(1, b"Hello")


def link():
    it = socket.socket(socket.AF_UNIX, socket.SOCK_STREAM)
    it.settimeout(10)
    it.connect(path)
    return it


def take(it, enough):
    got = b""
    while not enough(got):
        more = it.recv(65536)
        if not more:
            raise EOFError(got)
        got += more
    return got


def joined():
    """a client that said Hello and was answered"""
    it = link()
    it.sendall(LOGIN + HELLO)
    take(it, lambda got: b"NameAcquired" in got)
    return it


def is_closed(it):
    it.settimeout(10)
    try:
        while it.recv(65536):
            pass
        return True
    except ConnectionError:
        return True
    except socket.timeout:
        return False


def tell(name, right):
    global wrong
    wrong += not right
    print("as due" if right else "WRONG ", name, flush=True)


def others_go_on(name, right=True):
    try:
        joined().close()
    except (OSError, EOFError) as error:
        name, right = f"{name}: the next client was not served ({error!r})", False
    tell(name, right)


silent = link()
others_go_on("a client that says nothing")

slow = link()
for byte in LOGIN[: 1 + seconds]:
    slow.sendall(bytes([byte]))
    time.sleep(1 if seconds > 3 else 0.2)
slow.sendall(LOGIN[1 + seconds :])
for byte in HELLO:
    slow.sendall(bytes([byte]))
take(slow, lambda got: b"NameAcquired" in got)
others_go_on("one that sends a byte at a time is answered in the end")

half = link()
half.sendall(LOGIN + HELLO[:60])
others_go_on("half a message")
half.close()
others_go_on("half a message, and then the end")

long = link()
try:
    long.sendall(b"\0" + b"A" * 16385)
except OSError:
    pass
others_go_on("a line of 16,385 bytes is closed", is_closed(long))

no_zero = link()
no_zero.sendall(b"AUTH EXTERNAL\r\n")
others_go_on("no zero byte in front is closed", is_closed(no_zero))

early = link()
early.sendall(b"\0BEGIN\r\n")
others_go_on("BEGIN before anything was granted is closed", is_closed(early))

noisy = joined()
noisy.sendall(bus_call(2, b"GetId") + b"x" * 16)
others_go_on("a good stream and then noise is closed", is_closed(noisy))

first = link()
first.sendall(LOGIN + bus_call(1, b"ListNames"))
others_go_on("a first message that is no Hello is closed", is_closed(first))

died = joined()
died.sendall(bus_call(2, b"ListNames") * 100)
died.setsockopt(socket.SOL_SOCKET, socket.SO_LINGER, struct.pack("ii", 1, 0))
died.close()
others_go_on("one that dies with bytes unread")

for it in (silent, slow):
    it.close()
time.sleep(0.3)
all_ = []
for _ in range(64):
    all_.append(joined())
more = link()
more.sendall(LOGIN + HELLO)
more.settimeout(1)
try:
    more.recv(1)
    waits = False
except socket.timeout:
    waits = True
tell("64 links are served, a 65th waits", waits)
all_[30].close()
more.settimeout(10)
tell("and is served once one of them has ended", b"NameAcquired" in take(more, lambda got: b"NameAcquired" in got))
for it in all_ + [more]:
    it.close()
time.sleep(0.3)
others_go_on("all of them have ended")
# one that never reads, until its quota closes it, beside seven others that are served
deaf = joined()
rule = text(b"type='signal',interface='q.r'")
deaf.sendall(bus_call(2, b"AddMatch", b"s", rule))
seven = [joined() for _ in range(7)]
loud = seven[0]
body = text(b"z" * 60000)
signal_ = message(4, 5, [(1, b"o", b"/q"), (2, b"s", b"q.r"), (3, b"s", b"S")], b"s", body)
loud.settimeout(30)
for n in range(320):
    loud.sendall(signal_)
    if n % 40 == 0:
        it = seven[1 + n // 40 % 6]
        it.sendall(bus_call(2 + n, b"GetId"))
        take(it, lambda got: b"61747370693200000000000000000001" in got)
deaf.settimeout(15)
got = 0
try:
    while True:
        more = deaf.recv(1 << 20)
        if not more:
            break
        got += len(more)
    closed = True
except ConnectionError:
    closed = True
except socket.timeout:
    closed = False
others_go_on(f"one that never reads is closed at its quota (it could still read {got} bytes)", closed)
for it in seven:
    it.close()

sys.exit(1 if wrong else 0)
