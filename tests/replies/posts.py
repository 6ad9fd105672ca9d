"""Finds the document of each request of crates/wire_cases/data/posts again, by Python's own parsers of HTTP heads and of MIME."""
import email
import http.client
import io
import sys

from model import unescape


def document_in(request):
    """The document that a request submits."""
    lines = io.BytesIO(request)
    method, target, version = lines.readline().decode().split()
    assert (method, target, version) == ("POST", "/submission", "HTTP/1.1")
    head = http.client.parse_headers(lines)
    body = lines.read()
    assert len(body) == int(head["Content-Length"])
    form = email.message_from_bytes(f"Content-Type: {head['Content-Type']}\r\n\r\n".encode() + body)
    part, = form.get_payload()
    assert part.get_param("name", header="Content-Disposition") == "xml_submission_file"
    assert part.get_content_type() == "text/xml"
    return part.get_payload(decode=True)


def main(path):
    for line in open(path, encoding="latin-1").read().split("\n"):
        if line and not line.startswith("// "):
            document, request = map(unescape, line.split(" | "))
            # the parser of MIME takes a bare line feed for a line end, where RFC 2046 asks for CR LF
            if b"\n--odk-part" not in document:
                assert document_in(request) == document, document


if __name__ == "__main__":
    main(sys.argv[1])
