# The clients of bench/idle.sh, over plain sockets: prints numbers, one a line.
#
# usage: python3 idle_load.py CASE PORT TARGET PROCESS WORD..
import resource
import select
import socket
import sys
import time

_, hard = resource.getrlimit(resource.RLIMIT_NOFILE)
resource.setrlimit(resource.RLIMIT_NOFILE, (hard, hard))
case, port, target, process = sys.argv[1], int(sys.argv[2]), sys.argv[3], int(sys.argv[4])
HEAD = f"GET {target} HTTP/1.1\r\nHost: here\r\n\r\n".encode()
LAST = f"GET {target} HTTP/1.1\r\nConnection: close\r\n\r\n".encode()


def conn():
    return socket.create_connection(("127.0.0.1", port), timeout=20)


def processor():
    fields = open(f"/proc/{process}/stat").read().rsplit(")", 1)[1].split()
    return (int(fields[11]) + int(fields[12])) / 100


def resident():
    for line in open(f"/proc/{process}/status"):
        if line.startswith("VmRSS:"):
            return int(line.split()[1]) * 1024


def length_of(client):
    client.sendall(HEAD)
    came = b""
    while b"\r\n\r\n" not in came:
        came += client.recv(65536)
    head, _, body = came.partition(b"\r\n\r\n")
    size = next(int(line.split(b":")[1]) for line in head.split(b"\r\n") if line.lower().startswith(b"content-length"))
    while len(body) < size:
        body += client.recv(65536)
    return len(head) + 4 + size


def once(client, most=65536):
    client.sendall(HEAD)
    came = b""
    while b"\r\n\r\n" not in came:
        piece = client.recv(65536)
        if not piece:
            return None
        came += piece
    head, _, body = came.partition(b"\r\n\r\n")
    lines = head.lower().split(b"\r\n")
    size = next(int(line.split(b":")[1]) for line in lines if line.startswith(b"content-length"))
    got = len(body)
    while got < size:
        got += len(client.recv(65536))
    return b"connection: close" in lines


def latencies(place, count):
    """Milliseconds of so many answers on one connection to a port, the first one's with the time to connect."""
    each, start = [], time.perf_counter()
    client = socket.create_connection(("127.0.0.1", place), timeout=20)
    for _ in range(count):
        once(client)
        each.append((time.perf_counter() - start) * 1000)
        start = time.perf_counter()
    client.close()
    return each


def median(numbers):
    return sorted(numbers)[len(numbers) // 2]


def crowd(count, kind):
    held = []
    for _ in range(count):
        client = conn()
        if kind == "answered":
            once(client)
        elif kind == "half":
            client.sendall(HEAD[:20])
        held.append(client)
    return held


def idle():
    """First answer, median at a server with none, median beside so many of a kind, bytes of memory for each. The two servers
    take turns."""
    count, kind, other = int(sys.argv[5]), sys.argv[6], int(sys.argv[7])
    latencies(port, 90)
    before = resident()
    held = crowd(count, kind)
    time.sleep(0.5)
    after, firsts, beside, alone = resident(), [], [], []
    for _ in range(20):
        for place, numbers in ((other, alone), (port, beside)):
            first, *each = latencies(place, 90)
            numbers.extend(each)
        firsts.append(first)
    print(f"{median(firsts):.3f} {median(alone):.3f} {median(beside):.3f} {(after - before) // count}")
    for client in held:
        client.close()


def load():
    """Requests a second, and microseconds of the server's processor for one, by so many connections. Each is opened anew
    behind a reply that closes, and behind each where that is asked."""
    count, secs, each_new = int(sys.argv[5]), float(sys.argv[6]), sys.argv[7] == "new"
    sent = LAST if each_new else HEAD
    clients, poll, left = {}, select.epoll(), {}

    def open_one():
        client = conn()
        clients[client.fileno()] = client
        left[client.fileno()] = [b"", 0]
        poll.register(client.fileno(), select.EPOLLIN)
        client.sendall(sent)

    for _ in range(count):
        open_one()
    done, start, before = 0, time.perf_counter(), processor()
    while time.perf_counter() - start < secs:
        for number, _ in poll.poll(1):
            client, state = clients[number], left[number]
            piece = client.recv(65536)
            is_over = not piece
            if state[1]:
                state[1] -= len(piece)
            else:
                state[0] += piece
                head, end, body = state[0].partition(b"\r\n\r\n")
                if not end and piece:
                    continue
                lines = head.lower().split(b"\r\n")
                size = next((int(line.split(b":")[1]) for line in lines if line.startswith(b"content-length")), 0)
                state[1] = size - len(body)
                state[0] = b""
                state.append(b"connection: close" in lines) if len(state) == 2 else state.__setitem__(2, b"connection: close" in lines)
            if state[1] <= 0 or is_over:
                done += not is_over
                if is_over or state[2]:
                    poll.unregister(number)
                    clients.pop(number).close()
                    open_one()
                else:
                    state[1] = 0
                    client.sendall(sent)
    took = time.perf_counter() - start
    print(f"{done / took:.0f} {(processor() - before) / done * 1e6:.1f}")


def first_answer():
    start = time.perf_counter()
    client = conn()
    once(client)
    client.close()
    return (time.perf_counter() - start) * 1000


def leave():
    """So many clients that leave without a word, each as it comes or all when each is there: milliseconds until a new one has its
    answer, and until the server has done nothing for a moment, and microseconds of the server's processor for each."""
    count, is_at_once = int(sys.argv[5]), sys.argv[6] == "all"
    before, held = processor(), []
    for _ in range(count):
        client = conn()
        held.append(client) if is_at_once else client.close()
    if is_at_once:
        time.sleep(0.5)
        before = processor()
    start = time.perf_counter()
    for client in held:
        client.close()
    first = first_answer()
    now, rests = processor(), 0
    while rests < 5 and time.perf_counter() - start < 60:
        time.sleep(0.05)
        rests = rests + 1 if processor() == now else 0
        now = processor()
    print(f"{first:.1f} {(time.perf_counter() - start) * 1000 - 250:.0f} {(now - before) / count * 1e6:.0f}")


def drops():
    """Seconds of the server's processor for a head of so many bytes, each in a packet of its own."""
    size = int(sys.argv[5])
    head = b"GET / HTTP/1.1\r\n" + b"".join(b"a: %d\r\n" % (at % 10) for at in range(60))
    head += b"b: " + b"x" * (size - len(head) - 7) + b"\r\n\r\n"
    client = conn()
    client.setsockopt(socket.IPPROTO_TCP, socket.TCP_NODELAY, 1)
    before, start = processor(), time.perf_counter()
    try:
        for at in range(size):
            client.sendall(head[at : at + 1])
            # The server reads one byte at a time where the next one comes a little later.
            time.sleep(0.0001)
        came = client.recv(100)
    except OSError as error:
        came = repr(error).encode()
    print(f"{processor() - before:.2f} {time.perf_counter() - start:.2f} {came[:12].decode(errors='replace').replace(' ', '_')}")


next(one for one in (idle, load, leave, drops) if one.__name__ == case)()
