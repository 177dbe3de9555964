"""Passes a journal on from one connection to another, with each state one greater:
proxy.py [--record FOLDER] VERSION HOST PORT

It takes a connection at a port of this machine, which it prints, and opens one to HOST and PORT. All that it does not
change it passes on byte for byte, also the beginning of a last item that is not whole. A command that it changes has
only the fields of its type: unknown fields of the payload and ignored bits of the header are lost. With --record it
writes the items that it takes to FOLDER/received, and those that it passes on to FOLDER/passed_on.
"""

import argparse
import os
import socket
import sys
import typing
from dataclasses import replace

import pendratsoa
from pendratsoa.messages import SetStateCommandMessage, Value


def passed_on(item: pendratsoa.Item) -> bytes:
    """What takes the place of an item."""
    command = item.record(SetStateCommandMessage)
    if command is None or command.value is None:
        return item.bytes
    value = Value(b"%d" % (int(command.value.content) + 1))
    return replace(command, value=value).frame(item.version)


def parsed(words: typing.List[str]) -> argparse.Namespace:
    """The arguments."""
    parser = argparse.ArgumentParser(usage="proxy.py [--record FOLDER] 5..9 HOST PORT")
    parser.add_argument("--record", metavar="FOLDER")
    parser.add_argument("version", type=int, choices=range(5, 10))
    parser.add_argument("host")
    parser.add_argument("port", type=int)
    return parser.parse_args(words)


def record(folder: typing.Optional[str], name: str) -> typing.BinaryIO:
    """A new file in the folder; without a folder what is written is dropped."""
    return open(os.devnull if folder is None else os.path.join(folder, name), "wb")


def main(words: typing.List[str]) -> typing.Optional[str]:
    """Passes one journal on, and returns why it is not whole, if it is not."""
    given = parsed(words)
    with socket.create_server(("127.0.0.1", 0)) as server:
        print(server.getsockname()[1], flush=True)
        source, _ = server.accept()
    with source, socket.create_connection((given.host, given.port)) as target:
        with record(given.record, "received") as received, record(given.record, "passed_on") as passed:
            stream = pendratsoa.Stream(given.version)
            for item in stream.read(source, strict=False):
                received.write(item.bytes)
                changed = passed_on(item)
                passed.write(changed)
                target.sendall(changed)
            received.write(stream.trailing)
            passed.write(stream.trailing)
            target.sendall(stream.trailing)
    try:
        stream.finish()
    except pendratsoa.Incomplete as error:
        return f"proxy.py: {error}"
    return None


if __name__ == "__main__":
    sys.exit(main(sys.argv[1:]))
