"""What sessions send, which several benches make: messages of 9P, spelled by the names of their fields (python/rio9/record.py)."""
from rio9 import formats, record
from rio9.record import NOFID, NOTAG

TOP = 0  # the fid of the root of a session's tree


def said(name, data=b"", /, **fields):
    """A message."""
    return record.write_message(record.BY_NAME[name], {"tag": 1, **fields}, data)


def arrived(name=""):
    """Agrees on the version, and attaches to the device tree, or to what a name tells."""
    yield said("Tversion", tag=NOTAG, msize=formats.MOST_OF_A_MESSAGE, version="9P2000")
    yield said("Tattach", fid=TOP, afid=NOFID, uname="u", aname=name)


def opened(fid, mode, *names):
    """Opens the file of some names as a fid."""
    yield said("Twalk", fid=TOP, newfid=fid, names=names)
    yield said("Topen", fid=fid, mode=mode)


def written(fid, data):
    return said("Twrite", data, fid=fid, offset=0)
