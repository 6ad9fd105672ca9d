"""A small server of submissions, for tests/send.sh: server.py FOLDER.

It listens at localhost:8080 and writes FOLDER/ready once it does. What FOLDER/mode says is looked at for each request:
keep writes the submitted document to FOLDER/kept.N and answers 201; error answers 500; close ends without a reply; half
sends the first half of a reply with status 201; late sends the head of such a reply and half of its body. Each request is
read by Python's own parsers, and FOLDER/seen has a line for each.
"""

import email.parser
import email.policy
import http.server
import os
import sys

FOLDER = sys.argv[1]


def text_of(name):
    with open(os.path.join(FOLDER, name), encoding="utf-8") as file:
        return file.read().strip()


def documents_of(handler):
    """The parts of a multipart request that are called xml_submission_file."""
    body = handler.rfile.read(int(handler.headers["Content-Length"]))
    head = b"Content-Type: " + handler.headers["Content-Type"].encode() + b"\r\n\r\n"
    message = email.parser.BytesParser(policy=email.policy.HTTP).parsebytes(head + body)
    found = []
    for part in message.iter_parts():
        if part.get_param("name", header="content-disposition") == "xml_submission_file":
            found.append(part.get_payload(decode=True))
    return found


class Submissions(http.server.BaseHTTPRequestHandler):
    kept = 0

    def do_POST(self):
        mode = text_of("mode")
        documents = documents_of(self)
        with open(os.path.join(FOLDER, "seen"), "a", encoding="utf-8") as file:
            file.write(f"{self.command} {self.path} {self.headers['X-OpenRosa-Version']} {len(documents)} {mode}\n")
        self.close_connection = True
        if mode == "keep" and len(documents) == 1 and self.path == "/submission":
            Submissions.kept += 1
            with open(os.path.join(FOLDER, f"kept.{Submissions.kept}"), "wb") as file:
                file.write(documents[0])
            self.wfile.write(b"HTTP/1.1 201 Created\r\nContent-Length: 4\r\n\r\nkept")
        elif mode == "half":
            self.wfile.write(b"HTTP/1.1 201 Cre")
        elif mode == "late":
            self.wfile.write(b"HTTP/1.1 201 Created\r\nContent-Length: 10\r\n\r\nhalf")
        elif mode != "close":
            self.wfile.write(b"HTTP/1.1 500 Broken\r\nContent-Length: 0\r\n\r\n")

    def log_message(self, *words):
        pass


try:
    server = http.server.HTTPServer(("127.0.0.1", 8080), Submissions)
except OSError as trouble:
    sys.exit(f"port 8080: {trouble}")
with open(os.path.join(FOLDER, "ready"), "w", encoding="utf-8"):
    pass
server.serve_forever()
