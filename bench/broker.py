#!/usr/bin/python3
"""Starts dbus-broker at a socket without systemd: this process stands in for its launcher, and lets everyone do everything.
usage: broker.py PATH SECONDS      wants the Debian packages dbus-broker and python3-jeepney; ends by itself after SECONDS (at most 600)"""
import array, os, socket, subprocess, sys
from jeepney.low_level import Header, HeaderFields, Endianness, MessageType, Message

path, seconds = sys.argv[1], min(int(sys.argv[2]), 600)
listener = socket.socket(socket.AF_UNIX, socket.SOCK_STREAM)
listener.bind(path)
listener.listen(128)
listener.setblocking(False)
ours, theirs = socket.socketpair(socket.AF_UNIX, socket.SOCK_STREAM)
big = str(10**9)
broker = subprocess.Popen(["dbus-broker", "--controller", str(theirs.fileno()), "--machine-id", "0" * 31 + "1", "--max-bytes", big, "--max-fds", big, "--max-matches", big,
                           "--max-objects", big], pass_fds=[theirs.fileno()])
theirs.close()
ours.settimeout(5)
ours.sendall(b"\0AUTH EXTERNAL\r\nDATA\r\nNEGOTIATE_UNIX_FD\r\nBEGIN\r\n")
said = b""
while said.count(b"\r\n") < 3:
    said += ours.recv(4096)
batch = "bta(btbs)a(btssssuutt)a(btssssuutt)"
rule = [(True, 1, "", "", "", "", 0, 0, 0, 2**64 - 1)]
everything = (True, 1, [(True, 1, True, "")], rule, rule)
policy = (f"(a(u({batch}))a(buu({batch}))a(ss)bs)", ([(2**32 - 1, everything)], [], [], False, "session"))
fields = {HeaderFields.path: "/org/bus1/DBus/Broker", HeaderFields.interface: "org.bus1.DBus.Broker", HeaderFields.member: "AddListener", HeaderFields.signature: "ohv"}
call = Message(Header(Endianness.little, MessageType.method_call, 0, 1, -1, -1, fields), ("/org/bus1/DBus/Listener/0", listener, policy))
fds = array.array("i")
bytes_ = call.serialise(serial=1, fds=fds)
ours.sendmsg([bytes_], [(socket.SOL_SOCKET, socket.SCM_RIGHTS, fds)])
print("broker answers", ours.recv(4096)[1:2], file=sys.stderr, flush=True)
try:
    broker.wait(timeout=seconds)
except subprocess.TimeoutExpired:
    broker.terminate()
finally:
    if os.path.exists(path):
        os.unlink(path)
