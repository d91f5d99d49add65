#!/usr/bin/env python3
"""Small web services for captures: services.py ADDRESS PORT ...

On each port GET /N answers N bytes, numbered lines of 32 bytes, and PUT takes what is sent.
"""
import http.server
import sys
import threading


def lines(size):
    count = size // 32 + 1
    return b"".join(b"line %06d of this answer, ok...\n" % n for n in range(count))[:size]


class Service(http.server.BaseHTTPRequestHandler):
    protocol_version = "HTTP/1.1"
    wbufsize = -1  # an answer's head and body are written at once

    def do_GET(self):
        self.answer(200, lines(int(self.path[1:])))

    def do_PUT(self):
        self.rfile.read(int(self.headers["Content-Length"]))
        self.answer(201, b"")

    def answer(self, status, body):
        self.send_response(status)
        self.send_header("Content-Length", str(len(body)))
        self.end_headers()
        self.wfile.write(body)

    def log_message(self, *_):
        pass


def main():
    if len(sys.argv) < 3:
        sys.exit(__doc__)
    for port in sys.argv[2:]:
        server = http.server.ThreadingHTTPServer((sys.argv[1], int(port)), Service)
        threading.Thread(target=server.serve_forever).start()


if __name__ == "__main__":
    main()
