"""The payload that protobuf's own parser makes of a JSON text: parsed_json.py [--print] SET MESSAGE < TEXT

It is written in hexadecimal digits, or `rejected` in its place. SET is a descriptor set, MESSAGE the full name of a
message of it. With `--print` each line is a text, and after its payload comes what protobuf prints of it. Python's
protobuf has to be installed.
"""

import pathlib
import sys

from google.protobuf import descriptor_pb2, descriptor_pool, json_format, message_factory

prints = sys.argv[1] == "--print"
path, name = sys.argv[-2:]
given = descriptor_pb2.FileDescriptorSet.FromString(pathlib.Path(path).read_bytes())
pool = descriptor_pool.DescriptorPool()
for file in given.file:
    pool.Add(file)
kind = message_factory.MessageFactory(pool).GetPrototype(pool.FindMessageTypeByName(name))
for text in sys.stdin if prints else [sys.stdin.read()]:
    message = kind()
    try:
        json_format.Parse(text, message)
        payload = message.SerializeToString(deterministic=True).hex()
        print(payload, json_format.MessageToJson(message, indent=None) if prints else "", sep=" " if prints else "")
    except json_format.ParseError:
        print("rejected")
