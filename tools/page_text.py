#!/usr/bin/env python3
"""Writes crates/click_page/src/page_text.rt from crates/click_page/page/page.html, as byte strings
of Rattle. The content policy in it names the page's script by its checksum.

    tools/page_text.py            writes the file
    tools/page_text.py --check    compares the file, and exits with status 1 if it differs
"""
import base64
import hashlib
import os
import re
import sys

TOP = os.path.dirname(os.path.dirname(os.path.realpath(__file__)))
PAGE = "crates/click_page/page/page.html"
TEXT = "crates/click_page/src/page_text.rt"

# The form of the file, as rt fmt formats it.
FORM = """//! The page as bytes, and its content policy.
//!
//! tools/page_text.py writes this file from page/page.html. The gate checks that they agree.

/// The page: one file of HTML, CSS and plain JavaScript.
pub const PAGE: &[u8] =
    b"{page}";

/// The content policy. The page can load nothing from other origins, and only its own script can
/// run, which the policy names by its checksum.
pub const POLICY: &[u8] =
    b"{policy}";
"""
POLICY = "default-src 'none'; script-src 'sha256-{digest}'; style-src 'unsafe-inline'; connect-src 'self'; img-src 'self' data:; base-uri 'none'; form-action 'none'; frame-ancestors 'none'"


def stop(why):
    sys.exit(f"page_text.py: {why}")


def read_page():
    """Returns the page. Its bytes have to be ASCII, with LF as the only control byte.

    A browser and Rattle read these bytes in the same way.
    """
    with open(f"{TOP}/{PAGE}", "rb") as it:
        page = it.read()
    for at, byte in enumerate(page):
        if byte != 10 and not 32 <= byte < 127:
            stop(f"{PAGE} has the byte {byte:#04x} in line {page[:at].count(10) + 1}: only ASCII and LF are allowed")
    return page.decode()


def script_of(page):
    """Returns the text of the only script that the policy allows.

    Handlers in attributes are scripts too, and the policy allows none of them.
    """
    tags = re.findall(r"<script\b[^>]*>", page, re.I)
    scripts = re.findall(r"<script>(.*?)</script>", page, re.S)
    if len(tags) != 1 or len(scripts) != 1:
        stop(f"{PAGE} has {len(tags)} script tags, of which {len(scripts)} are inline and complete: exactly one is allowed, written as <script>")
    markup = page.replace(scripts[0], "")
    if found := re.search(r"<[^>]*\s(on\w+)\s*=", markup):
        stop(f"{PAGE} has the attribute {found[1]}: the policy does not allow scripts in attributes")
    return scripts[0]


def escaped(text):
    return text.replace("\\", "\\\\").replace('"', '\\"').replace("\n", "\\n")


def made():
    page = read_page()
    digest = base64.b64encode(hashlib.sha256(script_of(page).encode()).digest()).decode()
    return FORM.format(page=escaped(page), policy=escaped(POLICY.format(digest=digest)))


def main(words):
    if words not in ([], ["--check"]):
        stop("the only argument is --check")
    text, path = made(), f"{TOP}/{TEXT}"
    if words:
        with open(path, encoding="utf-8") as it:
            if it.read() != text:
                stop(f"{TEXT} does not agree with {PAGE}: run tools/page_text.py")
        return
    with open(path, "w", encoding="utf-8") as it:
        it.write(text)


if __name__ == "__main__":
    main(sys.argv[1:])
