# Clients of checks/idle.sh and bench/idle.sh, over plain sockets. Each case of the first word prints a line for each answer that
# isn't as it is to be, and last how many were looked at.
#
# usage: python3 idle_clients.py CASE PORT TARGET [WORD..]
import resource
import socket
import sys
import threading
import time

soft, hard = resource.getrlimit(resource.RLIMIT_NOFILE)
resource.setrlimit(resource.RLIMIT_NOFILE, (hard, hard))
case, port, target = sys.argv[1], int(sys.argv[2]), sys.argv[3]
HEAD = f"GET {target} HTTP/1.1\r\nHost: here\r\n\r\n".encode()
looked = 0


def look(what, is_so, got=""):
    global looked
    looked += 1
    if not is_so:
        print(f"{what}: {got}", flush=True)


def conn(timeout=20):
    return socket.create_connection(("127.0.0.1", port), timeout=timeout)


def reply(client, rest=b""):
    """One reply: its status and head, its body, and what came behind it."""
    while b"\r\n\r\n" not in rest:
        came = client.recv(65536)
        if not came:
            raise OSError("the end before a reply")
        rest += came
    head, _, rest = rest.partition(b"\r\n\r\n")
    fields = [line.split(b":") for line in head.split(b"\r\n")[1:]]
    length = next(int(field[1]) for field in fields if field[0].lower() == b"content-length")
    while len(rest) < length:
        came = client.recv(65536)
        if not came:
            raise OSError("the end within a reply")
        rest += came
    return head, rest[:length], rest[length:]


def status(client, sent=HEAD):
    try:
        client.sendall(sent)
        return reply(client)[0].split(b"\r\n")[0].split(b" ")[1].decode()
    except OSError as error:
        return repr(error)


def timed(call):
    start = time.monotonic()
    got = call()
    return got, time.monotonic() - start


def new_client():
    client = conn()
    got = status(client)
    client.close()
    return got


def looks_new(what, most=0.1):
    # What else runs on the machine may hold up one answer: the best of three counts.
    tries = [timed(new_client) for _ in range(3)]
    look(f"{what}: a new client", all(got == "200" for got, _ in tries), tries)
    best = min(secs for _, secs in tries)
    look(f"{what}: its time", best < most, f"{best:.3f} s")
    return best


def end_of(client, most):
    """Seconds until the other side ends, and what came before that."""
    client.settimeout(most)
    came, start = b"", time.monotonic()
    try:
        while True:
            piece = client.recv(65536)
            if not piece:
                return came, time.monotonic() - start
            came += piece
    except OSError as error:
        return repr(error).encode(), time.monotonic() - start


def crowd(count, kind):
    """So many clients of a kind, which stay."""
    held = []
    for _ in range(count):
        client = conn()
        if kind == "answered":
            look("a first answer", status(client) == "200")
        elif kind == "half":
            client.sendall(HEAD[:20])
        held.append(client)
    return held


def thousands():
    count = int(sys.argv[4])
    silent, answered = crowd(count, "silent"), crowd(count, "answered")
    half = crowd(count, "half")
    best = looks_new(f"beside {3 * count} idle ones")
    print(f"note a new client beside {3 * count} idle ones: {best * 1000:.1f} ms", file=sys.stderr)
    for kind, clients, rest in (("half", half, HEAD[20:]), ("silent", silent, HEAD), ("answered", answered, HEAD)):
        bad = [got for got in (status(client, rest) for client in clients) if got != "200"]
        look(f"{kind} ones that go on", not bad, f"{len(bad)} of {count}, as {bad[:1]}")
    for client in silent + answered + half:
        client.close()
    looks_new(f"behind {3 * count} that close while they are idle", 1)
    for _ in range(10 * count):
        conn().close()
    looks_new(f"behind {10 * count} that come and close at once", 1)


def pieces():
    client = conn()
    client.sendall(HEAD[:11])
    time.sleep(0.1)
    look("a head in two packets", status(client, HEAD[11:]) == "200")
    client.sendall(HEAD * 3)
    got, rest = [], b""
    for _ in range(3):
        head, _, rest = reply(client, rest)
        got.append(head[:12])
    look("three heads in one packet", got == [b"HTTP/1.1 200"] * 3, got)
    client.sendall(HEAD + HEAD[:9])
    (_, secs) = timed(lambda: reply(client))
    look("one and a half heads: the first reply", secs < 1, secs)
    look("one and a half heads: the second", status(client, HEAD[9:]) == "200")
    time.sleep(6)
    look("a connection that is idle for 6 seconds", status(client) == "200")


def byte_by_byte():
    got = []

    def slowly():
        client = conn()
        for byte in HEAD[:-1]:
            client.sendall(bytes([byte]))
            time.sleep(0.03)
        got.append(status(client, HEAD[-1:]))

    threads = [threading.Thread(target=slowly) for _ in range(40)]
    for thread in threads:
        thread.start()
    time.sleep(0.5)
    looks_new("beside 40 that send byte by byte")
    for thread in threads:
        thread.join()
    look("40 clients byte by byte", got == ["200"] * 40, got)


def drip():
    """64 clients with one and a half heads, of which each sends a byte every four seconds."""
    clients = [conn() for _ in range(64)]
    for client in clients:
        client.sendall(HEAD + HEAD[:5])
    look("the first replies", all(reply(client)[0].startswith(b"HTTP/1.1 200") for client in clients))
    for at in range(2):
        looks_new("beside 64 that drip")
        time.sleep(4 - 4 * at)
        for client in clients:
            try:
                client.sendall(HEAD[5 + at : 6 + at])
            except OSError:
                pass
    looks_new("beside 64 that drip, later")
    ends = [end_of(client, 10) for client in clients]
    look("those that drip have their end", all(came == b"" and secs < 7 for came, secs in ends), ends[:1])


def ends():
    for what, sent, wanted, least, most in (
        ("a bad line", b"GARBAGE\r\n", b"HTTP/1.1 400", 0, 1.5),
        ("bytes of TLS", b"\x16\x03\x01\x02\x00\x01\x00\x01\xfc\x03\x03", b"", 0, 1.5),
        ("half a head", HEAD[:20], b"", 4.9, 7),
    ):
        client = conn()
        client.sendall(sent)
        came, secs = end_of(client, 20)
        look(what, came.startswith(wanted) and bool(came) == bool(wanted), came[:60])
        look(f"{what}: its end", least <= secs <= most, f"{secs:.2f} s")
    client, start = conn(), time.monotonic()
    client.settimeout(1)
    came = None
    for at in range(20):
        try:
            client.sendall(HEAD[at : at + 1])
            came = client.recv(100)
            break
        except TimeoutError:
            pass
        except OSError:
            came = b""
            break
    secs = time.monotonic() - start
    look("a byte each second", came == b"" and 5 <= secs <= 7, f"{came!r} after {secs:.2f} s")


def rest():
    client = conn()
    client.sendall(HEAD * 101)
    came, _ = end_of(client, 20)
    look("of 101 heads", came.count(b"HTTP/1.1 200") == 100, came.count(b"HTTP/1.1 200"))
    look("the hundredth closes", came.count(b"Connection: close") == 1)
    client = conn()
    client.sendall(HEAD)
    client.shutdown(socket.SHUT_WR)
    head, body, _ = reply(client)
    look("a half-closed client", head.startswith(b"HTTP/1.1 200") and len(body) > 0 and client.recv(10) == b"")
    for _ in range(20):
        client = conn()
        client.sendall(HEAD)
        time.sleep(0.01)
        client.close()
    looks_new("behind those that close with bytes unread", 1)


def few():
    """Clients of each kind at a server that has few descriptors, each with a new one behind it."""
    for kind in ("silent", "answered", "half"):
        held = []
        for at in range(int(sys.argv[4])):
            client = conn()
            try:
                if kind == "answered":
                    look(f"a new client that is answered, {at}", status(client) == "200")
                elif kind == "half":
                    client.sendall(HEAD[:20])
            except OSError:
                pass
            held.append(client)
            if at % 10 == 0:
                got = new_client()
                look(f"a new client beside {at} {kind}", got == "200", got)
        for client in held:
            client.close()


def kept():
    """So many requests on one connection, one after the other."""
    client = conn()
    for at in range(int(sys.argv[4])):
        got = status(client)
        look(f"request {at}", got == "200", got)


cases = (thousands, pieces, byte_by_byte, drip, ends, rest, few, kept)
next(one for one in cases if one.__name__ == case)()
print(f"looked {looked}", flush=True)
