"""The identification header of RFC 7845, section 5.1, read and written from the RFC's text and document 02 alone: the second opinion of tests/heads/run."""
import struct

LETTERS = b"OpusHead"
FIXED = struct.Struct("<8sBBHIhB")      # letters, version, channels, pre-skip, input rate, gain, mapping family
FIELDS = ("version", "channels", "pre_skip", "rate", "gain", "family", "streams", "coupled")
NOTHING = dict.fromkeys(FIELDS, 0) | {"mapping": bytes(255)}


def lawful(head):
    """Whether the fields obey the rules, whatever the version."""
    family, channels, streams, coupled = head["family"], head["channels"], head["streams"], head["coupled"]
    used, unused = head["mapping"][:channels], head["mapping"][channels:]
    most = {0: 2, 1: 8}.get(family, 255)
    if not 1 <= channels <= most or any(unused):
        return False
    if family == 0:
        return (streams, coupled, used) == (1, channels - 1, bytes(range(channels)))
    return 1 <= streams and coupled <= streams and streams + coupled <= 255 and all(e == 255 or e < streams + coupled for e in used)


def read(data):
    """The number, and the fields, which are 0 beside a refusal."""
    if len(data) < FIXED.size or data[:8] != LETTERS:
        return -22, NOTHING
    _, version, channels, pre_skip, rate, gain, family = FIXED.unpack_from(data)
    if version >= 16:
        return -23, NOTHING
    end = FIXED.size if family == 0 else FIXED.size + 2 + channels
    if len(data) < end or version == 1 and len(data) > end:
        return -22, NOTHING
    if family == 0:
        streams, coupled, used = 1, max(channels - 1, 0), bytes(range(min(channels, 255)))
    else:
        streams, coupled, used = data[19], data[20], data[21:end]
    head = dict(zip(FIELDS, (version, channels, pre_skip, rate, gain, family, streams, coupled)))
    head["mapping"] = used + bytes(255 - len(used))
    return (0, head) if lawful(head) else (-24, NOTHING)


def written(head):
    """The bytes of a header."""
    fixed = FIXED.pack(LETTERS, *(head[name] for name in FIELDS[:6]))
    if head["family"] == 0:
        return fixed
    return fixed + bytes([head["streams"], head["coupled"]]) + head["mapping"][: head["channels"]]


def write(head, room):
    """The number, and what a destination of so many bytes holds then, which was 238 throughout."""
    before = bytes([238]) * room
    if head["version"] != 1 or not lawful(head):
        return -24, before
    data = written(head)
    if room < len(data):
        return -2, before
    return len(data), data + before[len(data):]
