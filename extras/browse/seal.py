"""Puts the digests of its style and its script into the policy of browse.html, by which browsers run no other: `python3 extras/browse/seal.py`."""
import base64
import hashlib
import pathlib
import re

FILE = pathlib.Path(__file__).with_name("browse.html")


def digest(page, tag):
    (inside,) = re.findall(f"<{tag}>(.*?)</{tag}>", page, re.S)
    return f"'sha256-{base64.b64encode(hashlib.sha256(inside.encode()).digest()).decode()}'"


def sealed(page):
    policy = (f"default-src 'none'; script-src {digest(page, 'script')}; style-src {digest(page, 'style')}; connect-src 'self'; img-src 'self' data:; "
              "base-uri 'none'; form-action 'none'; require-trusted-types-for 'script'; trusted-types 'none'")
    return re.sub(r'(http-equiv="Content-Security-Policy" content=")[^"]*', lambda found: found.group(1) + policy, page)


# As bytes, so that no line end is changed.
page = sealed(FILE.read_bytes().decode()).encode()
FILE.write_bytes(page)
print(f"{FILE.name}: {len(page)} bytes")
