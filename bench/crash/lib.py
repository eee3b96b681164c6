"""The benches' one library, bench/lib, under this folder's name."""
import os

__path__ = [os.path.join(os.path.dirname(os.path.dirname(os.path.realpath(__file__))), 'lib')]
