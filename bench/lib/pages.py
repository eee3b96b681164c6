"""The examples of the pages, as whoever types them reads them."""

import os
import re

from lib.program import TOP, content


def page_of(name):
    """A page of docs/use."""
    return content(os.path.join(TOP, 'docs/use', name))


def blocks_in(text):
    """The indented blocks of a text, without their indent."""
    return [re.sub(r'(?m)^ {4}', '', block).rstrip('\n') for block in re.findall(r'(?m)(?:^ {4}.*\n)+', text)]


def blocks_below(name, heading):
    """Those below a heading of a page."""
    return blocks_in(page_of(name).split('\n%s\n' % heading, 1)[1].split('\n## ')[0])
