#!/usr/bin/env python3
"""Writes the listing that docs/SPEED.md speaks of: 20,000 responses of 400 bytes, as servers write them.

    tools/listing_speed/listing.py > listing.xml
    tools/listing_speed/listing.py 100000 > longer.xml
"""
import sys

HEAD = '<?xml version="1.0" encoding="utf-8"?>\n<D:multistatus xmlns:D="DAV:">\n'
TAIL = '</D:multistatus>\n'
RESPONSE = (
    '<D:response><D:href>/dav/file-{number:06}.dat</D:href><D:propstat><D:prop>'
    '<D:creationdate>2026-11-30T07:{minute:02}:{second:02}Z</D:creationdate>'
    '<D:getcontentlength>{size}</D:getcontentlength>'
    '<D:getlastmodified>Tue, 01 Dec 2026 08:{minute:02}:{second:02} GMT</D:getlastmodified>'
    '<D:getetag>"{number:08x}-{size:x}"</D:getetag>'
    '<D:displayname>NAME</D:displayname><D:resourcetype/></D:prop><D:status>HTTP/1.1 200 OK</D:status></D:propstat></D:response>\n'
)


def response(number):
    """One response of 400 bytes, the last of which is a line feed."""
    size = 1000 + number * 37
    text = RESPONSE.format(number=number, size=size, minute=number // 60 % 60, second=number % 60)
    return text.replace('NAME', 'x' * (404 - len(text)))


def main():
    count = int(sys.argv[1]) if len(sys.argv) > 1 else 20000
    sys.stdout.write(HEAD)
    for number in range(count):
        sys.stdout.write(response(number))
    sys.stdout.write(TAIL)


main()
