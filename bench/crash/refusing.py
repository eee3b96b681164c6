"""The shim that refuses one allocation of a program, for refused-batches and refused-sessions beside it."""

import os

from lib.program import TOP, content, shared_library


def made_in(folder):
    """The shim's library."""
    return shared_library(os.path.realpath(folder), 'refuse', content(os.path.join(TOP, 'bench/crash/refuse.c')))


def refusing(shim, number):
    """The environment of a program whose allocation of this number is refused; 0 refuses none."""
    return {**os.environ, 'LD_PRELOAD': shim, 'REFUSE': str(number)} if number else os.environ
