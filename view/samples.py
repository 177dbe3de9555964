"""Journals for the tests and the picture of the page: frames of messages that are given by the names of their fields.

    python3 view/samples.py FOLDER     writes orders_recorded and orders_replayed, the journals of the picture
"""
import json
import pathlib
import sys

sys.dont_write_bytecode = True
sys.path.insert(0, str(pathlib.Path(__file__).resolve().parent.parent / "tools"))

from generators.json_names import fields_of  # noqa: E402
from generators.proto import messages  # noqa: E402

MESSAGES = {message.name: message for message in messages()}


def varint(number):
    """A number as a varint."""
    groups = []
    while number >= 0x80:
        groups.append(number & 0x7F | 0x80)
        number >>= 7
    return bytes([*groups, number])


def record(field, value):
    """A record of a field: of a number, or of bytes, a text or a message."""
    if isinstance(value, int):
        return varint(field.number << 3) + varint(value)
    content = value.encode() if isinstance(value, str) else value
    if isinstance(value, dict):
        content = payload(field.message, value)
    return varint(field.number << 3 | 2) + varint(len(content)) + content


def payload(name, values):
    """The payload of a message: the record of each value, those of a list one after the other."""
    fields = {field.name: field for field in fields_of(MESSAGES[name])}
    parts = []
    for key, value in values.items():
        parts += [record(fields[key], one) for one in (value if isinstance(value, list) else [value])]
    return b"".join(parts)


def raw_frame(code, content, flag=0):
    """A frame of any code and payload."""
    return code.to_bytes(2, "big") + (flag << 15).to_bytes(2, "big") + len(content).to_bytes(4, "big") + content


def frame(type_name, **values):
    """The frame of a type's message."""
    name = f"{type_name}Message"
    return raw_frame(MESSAGES[name].code, payload(name, values))


def as_json(value):
    """Bytes that are JSON, as a service writes them."""
    return json.dumps(value, ensure_ascii=False).encode()


def order(charge, parameter, more=b""):
    """The journal of an order, which charges a card by this handler, and is suspended after it; with more frames before
    its state is set."""
    return b"".join([
        frame("Start", id=bytes.fromhex("01937fa2c4"), debug_id="inv_1gdJBtdVEcM9", known_entries=11, key="order-1042",
              state_map=[{"key": b"status", "value": b'"pending"'}], random_seed=88172645463325252),
        frame("InputCommand", headers=[{"key": "content-type", "value": "application/json"}],
              value={"content": as_json({"order": 1042, "items": [{"sku": "tea", "count": 2}], "name": "Zoë"})}),
        frame("GetEagerStateCommand", key=b"status", value={"content": b'"pending"'}),
        frame("RunCommand", result_completion_id=1, name="reserve stock"),
        frame("ProposeRunCompletion", result_completion_id=1, value=as_json({"reserved": True})),
        frame("ProposeRunCompletionAck", completion_id=1),
        frame("RunCompletionNotification", completion_id=1, value={"content": as_json({"reserved": True})}),
        more,
        frame("SetStateCommand", key=b"status", value={"content": b'"reserved"'}),
        frame("CallCommand", service_name="payments", handler_name=charge, parameter=as_json(parameter),
              idempotency_key="order-1042", invocation_id_notification_idx=2, result_completion_id=3, name="charge"),
        frame("CallInvocationIdCompletionNotification", completion_id=2, invocation_id="inv_1aKkqPz7RrTe"),
        frame("SleepCommand", wake_up_time=1764003600000, result_completion_id=4, name="time limit"),
        frame("Suspension", awaiting_on={"nested_futures": [
            {"waiting_completions": [3, 4], "combinator_type": 2}, {"waiting_signals": [17]}], "combinator_type": 1}),
    ])


def settled():
    """What comes after an order's suspension: the call fails, the failure is handled, and the order ends."""
    return b"".join([
        frame("CallCompletionNotification", completion_id=3,
              failure={"code": 402, "message": "the card was declined",
                       "metadata": [{"key": "bank", "value": "no cover"}]}),
        frame("SignalNotification", idx=17, value={"content": b"cancel requested by the customer"}),
        frame("OneWayCallCommand", service_name="mail", handler_name="send", parameter=b"\x08\x96\x01\x12\x03tea\xff",
              invocation_id_notification_idx=5, name="apology"),
        frame("CompleteAwakeableCommand", awakeable_id="sign_1AZN_osQAAAAR", value={"content": b"false"}),
        frame("OutputCommand", failure={"code": 402, "message": "order 1042 was not paid"}),
        frame("End"),
    ])


def orders():
    """Two journals of one order: the replay sets one state more, and its call is another one."""
    recorded = order("charge", {"amount": 18.5, "currency": "EUR", "card": "4242"})
    more = frame("SetStateCommand", key=b"checked", value={"content": b"true"})
    replayed = order("chargeCard", {"amount": 18.5, "currency": "EUR", "card": "4242", "retries": 3}, more)
    return recorded + settled(), replayed


def steps(number, first=1):
    """So many commands of an order's steps, each a state of its own, numbered from `first` on."""
    keys = [b"step %d" % count for count in range(first, first + number)]
    return [frame("SetStateCommand", key=key, value={"content": b"done"}) for key in keys]


def runs(count, other=None):
    """The parts of a journal of so many runs, at most two million, each with its completion: 150 bytes a run. The one
    of a number may have another name."""
    first = 1 << 14
    names = (b"run 0000000", b"ran 0000000")
    value = as_json({"order": 0, "text": "x" * 86})
    both = [
        frame("RunCommand", result_completion_id=first, name=name.decode())
        + frame("RunCompletionNotification", completion_id=first, value={"content": value})
        for name in names
    ]
    # the numbers have the same length in all runs
    one, changed = (text.replace(varint(first), b"%b").replace(b"0000000", b"%07d") for text in both)
    for number in range(count):
        number_of = varint(first + number)
        yield (changed if number == other else one) % (number_of, number, number_of)


def audited():
    """Two journals of 98 steps; the replay sets another state before the fiftieth."""
    same = steps(98)
    other = frame("SetStateCommand", key=b"other", value={"content": b"audit"})
    return b"".join(same), b"".join([*same[:49], other, *same[49:]])


def write_orders(folder):
    for name, data in zip(("orders_recorded", "orders_replayed"), orders()):
        (pathlib.Path(folder) / name).write_bytes(data)


if __name__ == "__main__":
    write_orders(sys.argv[1])
