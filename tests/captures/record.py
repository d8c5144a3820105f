#!/usr/bin/env python3
"""Writes the octets that come over one TCP connection to a file, until the other end closes.

usage: record.py listen FILE PORTFILE READY      on a free port, whose number it writes to PORTFILE
       record.py connect FILE PORT READY         to a port of this host, as soon as something listens there
       record.py port                            prints a port that is free, below 32768: direwolf takes none above 49151
       record.py count FILE                      prints how many frames a KISS log holds on ports 0 to 11

It makes the file READY once it is connected."""
import os
import random
import socket
import sys
import time

PATIENCE = 60  # seconds without a word


def listening(port=0):
    server = socket.socket()
    server.bind(('127.0.0.1', port))
    server.listen(1)
    server.settimeout(PATIENCE)
    return server, server.getsockname()[1]


def free_port():
    for _ in range(100):
        port = random.randrange(20000, 32768)
        try:
            listening(port)[0].close()
            return port
        except OSError:
            pass
    sys.exit('record: no free port was found')


def tell(path, text):
    """Writes a file that appears whole."""
    with open(path + '.part', 'w') as f:
        print(text, file=f)
    os.rename(path + '.part', path)


def accepted(port_file):
    server, port = listening()
    tell(port_file, port)
    return server.accept()[0]


def connected(port):
    for _ in range(10 * PATIENCE):
        try:
            return socket.create_connection(('127.0.0.1', port))
        except OSError:
            time.sleep(0.1)
    sys.exit(f'record: nothing listens on port {port}')


def record(connection, path, ready):
    connection.settimeout(PATIENCE)
    tell(ready, 'connected')
    with open(path, 'wb') as f:
        while True:
            octets = connection.recv(4096)
            if not octets:
                return
            f.write(octets)


def is_frame(part):
    """Between two delimiters: the type's low half is 0 and its high half, the port, at most 11."""
    return part[:1] in [bytes([port << 4]) for port in range(12)]


def main():
    if sys.argv[1:] == ['port']:
        print(free_port())
    elif len(sys.argv) == 3 and sys.argv[1] == 'count':
        with open(sys.argv[2], 'rb') as f:
            print(sum(is_frame(part) for part in f.read().split(b'\xC0')))
    elif len(sys.argv) == 5 and sys.argv[1] == 'listen':
        record(accepted(sys.argv[3]), sys.argv[2], sys.argv[4])
    elif len(sys.argv) == 5 and sys.argv[1] == 'connect':
        record(connected(int(sys.argv[3])), sys.argv[2], sys.argv[4])
    else:
        sys.exit(__doc__)


if __name__ == '__main__':
    main()
