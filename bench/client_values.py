"""Values in text, as a client of the server writes them."""
import os
import sys

TOP = os.path.dirname(os.path.dirname(os.path.abspath(__file__)))
sys.path.insert(0, os.path.join(TOP, "examples"))
from client import read_text, written  # noqa: E402


def bytes_of(text):
    """The binary form of a value in which #:[17 n] stands for object n of the client's own."""
    return written(read_text(text.replace("#:[17 ", "#:[0 ")))
