#!/usr/bin/env python3
"""Makes DNS and TCP traffic on the loopback device, while `make.sh` captures it there.

A small responder answers DNS queries over UDP, and a small server answers a request over TCP.
Both stand in this script, so that nothing but the loopback device is needed.
"""
import socket
import struct
import threading

HOST = "127.0.0.1"
DNS_PORT = 53
TCP_PORT = 8080
ADDRESSES = {"one.example": "192.0.2.1", "two.example": "192.0.2.2", "three.example": "192.0.2.3"}
TYPE_A, TYPE_TXT = 1, 16
REPLIES = (400, 1400, 4500)


def encoded(name):
    """A name as DNS writes it: each label after its length."""
    return b"".join(bytes([len(part)]) + part.encode() for part in name.split(".")) + b"\0"


def query(number, name, kind):
    return (
        struct.pack(">HHHHHH", number, 0x0100, 1, 0, 0, 0) + encoded(name)
        + struct.pack(">HH", kind, 1)
    )


def answer(message):
    """The answer to a query: an address, a long text, or that the name isn't there."""
    (number,) = struct.unpack_from(">H", message)
    end = message.index(b"\0", 12) + 1
    name = message[12 : end - 1]
    labels = []
    while name:
        labels.append(name[1 : 1 + name[0]].decode())
        name = name[1 + name[0] :]
    address = ADDRESSES.get(".".join(labels))
    (kind,) = struct.unpack_from(">H", message, end)
    records = []
    if address and kind == TYPE_A:
        records = [socket.inet_aton(address)]
    elif address and kind == TYPE_TXT:
        records = [bytes([200]) + bytes(97 + (i + j) % 26 for j in range(200)) for i in range(6)]
    head = struct.pack(">HHHHHH", number, 0x8580 | (0 if address else 3), 1, len(records), 0, 0)
    rest = b"".join(
        struct.pack(">HHHIH", 0xC00C, kind, 1, 60, len(data)) + data
        for data in records
    )
    return head + message[12 : end + 4] + rest


def respond(server, count):
    for _ in range(count):
        message, sender = server.recvfrom(4096)
        server.sendto(answer(message), sender)


def serve(server, sizes):
    for size in sizes:
        connection, _ = server.accept()
        with connection:
            connection.recv(4096)
            connection.sendall(b"HTTP/1.0 200 OK\r\n\r\n" + bytes(33 + i % 90 for i in range(size)))


def main():
    questions = (
        [(name, TYPE_A) for name in ADDRESSES]
        + [("four.example", TYPE_A), ("two.example", TYPE_TXT)]
    )
    dns = socket.socket(socket.AF_INET, socket.SOCK_DGRAM)
    dns.bind((HOST, DNS_PORT))
    responder = threading.Thread(target=respond, args=(dns, len(questions)))
    responder.start()
    with socket.socket(socket.AF_INET, socket.SOCK_DGRAM) as client:
        client.connect((HOST, DNS_PORT))
        for number, (name, kind) in enumerate(questions, 1):
            client.send(query(number, name, kind))
            client.recv(4096)
    responder.join()

    tcp = socket.socket(socket.AF_INET, socket.SOCK_STREAM)
    tcp.setsockopt(socket.SOL_SOCKET, socket.SO_REUSEADDR, 1)
    tcp.bind((HOST, TCP_PORT))
    tcp.listen()
    server = threading.Thread(target=serve, args=(tcp, REPLIES))
    server.start()
    for size in REPLIES:
        with socket.create_connection((HOST, TCP_PORT)) as client:
            client.sendall(b"GET /%d HTTP/1.0\r\n\r\n" % size)
            while client.recv(4096):
                pass
    server.join()


if __name__ == "__main__":
    main()
