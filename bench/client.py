"""Starts the client often, over a server of its own, and prints how long each call took from its start to its end.

    client.py CLIENT
"""

import os
import socket
import statistics
import subprocess
import sys
import tempfile
import threading
import time

TIMES = 200
LONG = 3_000_000


def reply(text):
    return (len(text) + 1).to_bytes(4, "big") + b"\0" + text


def serve(listener):
    """Takes one client after another: a ping has a pong, and every other request a long reply."""
    pong, long_reply = reply(b"pong"), reply(b"x" * LONG)
    while True:
        conn, _ = listener.accept()
        with conn:
            conn.sendall(pong if conn.recv(1 << 16).endswith(b"ping") else long_reply)


def milliseconds(words, cpu):
    begin = time.perf_counter()
    process = subprocess.Popen(words, stdout=subprocess.DEVNULL, preexec_fn=lambda: os.sched_setaffinity(0, {cpu}))
    if process.wait() != 0:
        sys.exit(f"{words} ended with {process.returncode}")
    return (time.perf_counter() - begin) * 1_000


def main(client):
    cpu = max(os.sched_getaffinity(0))
    with tempfile.TemporaryDirectory() as place:
        path = os.path.join(place, "socket")
        listener = socket.socket(socket.AF_UNIX)
        listener.bind(path)
        listener.listen()
        threading.Thread(target=serve, args=(listener,), daemon=True).start()
        rows = [
            ("true", ["true"], TIMES),
            ("fail2ban-client --str2sec 1h", [client, "--str2sec", "1h"], TIMES),
            ("fail2ban-client ping", [client, "-s", path, "ping"], TIMES),
            ("fail2ban-client banned, 3 MB", [client, "-s", path, "banned"], TIMES // 4),
            ("python3 -c pass", ["python3", "-c", "pass"], TIMES // 4),
        ]
        print("| from start to end, ms | median | least | most |\n|---|---|---|---|")
        for name, words, times in rows:
            took = [milliseconds(words, cpu) for _ in range(times)]
            print(f"| `{name}` | {statistics.median(took):.2f} | {min(took):.2f} | {max(took):.2f} |")


if __name__ == "__main__":
    main(os.path.abspath(sys.argv[1]))
