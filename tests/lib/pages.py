"""What a page of ember-mesh has in base64."""
import base64
import re
import struct


def decoded(page, name):
    return base64.b64decode(re.search(rf"const {name} = '([^']*)'".encode(), page)[1])


def corners_on_page(page):
    """The corners of a page's triangles."""
    return list(struct.iter_unpack("<3f", decoded(page, "base64")))


def files_on_page(page):
    """The number of the file of each triangle, from 1; 0 if it isn't known."""
    return list(decoded(page, "fileLetters"))
