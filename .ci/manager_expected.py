#!/usr/bin/env python3
"""An independent decoder, written from docs/HEALTH_POLLING.md: what `manager` must print for the lines on standard input.

Its numbers are computed from the rules alone; the wording of a line is that of crates/manager/stdout.

    .ci/manager_expected.py <crates/manager/stdin | diff - crates/manager/stdout
"""
import sys

FLAGS = [(0, "RDY"), (1, "CFS"), (2, "SHST"), (4, "NSSRO"), (5, "CECO"), (6, "NAC"), (7, "FA"), (8, "CSTS"),
         (9, "CTEMP"), (10, "PDLU"), (11, "SPARE"), (12, "CWARN"), (13, "TCIDA")]
STATUS_BITS = [(0, "RDY"), (1, "CFS"), (4, "NSSRO"), (5, "CECO"), (6, "NAC"), (7, "FA"), (8, "TCIDA")]
STATUSES = {0: "Success", 3: "Invalid Command Opcode", 4: "Invalid Parameter", 5: "Invalid Command Size"}
WORDS = {3: "cut short, or of another length: {0}", 4: "wrong byte {0}", 5: "wrong ROR or message type in byte {0}",
         6: "opcode against NVMe-MI Send or Receive in byte {0}"}


class Refused(Exception):
    def __init__(self, number, place):
        text = WORDS[number].format(place)
        super().__init__(f"refused {number} layer 3 place {place}: {text}")


class LineError(Exception):
    pass


def le(b):
    return int.from_bytes(b, "little")


def bit(word, i):
    return word >> i & 1


def named(word, names):
    return "".join(f" {name}" for i, name in names if bit(word, i))


def flags(word):
    word &= sum(1 << i for i, _ in FLAGS)
    return f"{word:04X}h" + named(word, FLAGS)


def nmp_is(byte, ror):
    return bit(byte, 7) == ror and (byte >> 3 & 15) == 1


def read_request(carrier, b):
    """(tag, MEB, surplus, opcode, NMD0, NMD1)"""
    if carrier == "endpoint":
        if len(b) < 16:
            raise Refused(3, len(b))
        if b[0] != 0x84:
            raise Refused(4, 0)
        if not nmp_is(b[1], 0):
            raise Refused(5, 1)
        return b[1] & 1, b[2] & 1, len(b) - 16, b[4], le(b[8:12]), le(b[12:16])
    if len(b) != 64:
        raise Refused(3, len(b))
    if b[0] not in (0x1D, 0x1E):
        raise Refused(4, 0)
    if not nmp_is(b[41], 0):
        raise Refused(5, 41)
    if (b[0] == 0x1D) != (b[44] == 3):
        raise Refused(6, 44)
    return 0, 0, 0, b[44], le(b[48:52]), le(b[52:56])


def read_head(carrier, b):
    """(status, NMRESP, data)"""
    if carrier == "endpoint":
        if len(b) < 8:
            raise Refused(3, len(b))
        if b[0] != 0x84:
            raise Refused(4, 0)
        if not nmp_is(b[1], 1):
            raise Refused(5, 1)
        return b[4], le(b[5:8]), b[8:]
    if len(b) < 4:
        raise Refused(3, len(b))
    return b[0], le(b[1:4]), b[4:]


def command_lines(opcode, d0, d1):
    if opcode == 1:
        return [f"  NVM Subsystem Health Status Poll: Clear Status {bit(d1, 31)}"]
    if opcode == 2:
        return [f"  Controller Health Status Poll: SCTLID {d0 & 0xFFFF}, MAXRENT {d0 >> 16 & 255}",
                f"  Report All {bit(d0, 31)}, INCVF {bit(d0, 26)}, INCPF {bit(d0, 25)}, INCF {bit(d0, 24)}",
                f"  select CWARN {bit(d1, 4)}, SPARE {bit(d1, 3)}, PDLU {bit(d1, 2)}, CTEMP {bit(d1, 1)}, CSTS {bit(d1, 0)}",
                f"  Clear Changed Flags {bit(d1, 31)}"]
    if opcode not in (3, 4):
        return ["  no health command: its error reply is 03h Invalid Command Opcode"]
    if d0 & 255 != 2:
        return ["  no health command: its error reply is 04h Invalid Parameter, byte 8"]
    if opcode == 3:
        return ["  Configuration Set, Health Status Change: clear composite flags " + flags(d1 & 0xFFFF)]
    return ["  Configuration Get, Health Status Change"]


def entry_lines(b):
    status, kelvins = le(b[2:4]) & 0x1FF, le(b[4:6])
    temperature = f"temperature {kelvins} K" if kelvins else "no temperature reading"
    return [f"  controller {le(b[0:2])}: status {status:04X}h SHST={status >> 2 & 3}" + named(status, STATUS_BITS),
            f"    {temperature}, percentage used {b[6]}, available spare {b[7]}, critical warning {b[8]:02X}h",
            "    changed flags " + flags(le(b[9:11]))]


def celsius(code):
    if code == 0x7F:
        return "127 C or more"
    if code == 0x80:
        return "without a reading"
    if code == 0xC4:
        return "-60 C or less"
    if code < 0x7F:
        return f"{code} C"
    if code >= 0xC5:
        return f"{code - 256} C"
    raise ValueError("a temperature code that the rules do not name")


def subsystem_lines(b):
    return [f"  functional {bit(b[0], 5)}, reset not required {bit(b[0], 4)}, sanitize failed {bit(b[0], 6)}",
            f"  link up at the lowest port {bit(b[0], 3)}, at the second lowest port {bit(b[0], 2)}",
            f"  critical warning {255 - b[1]:02X}h, percentage used {b[3]}, temperature {celsius(b[2])}",
            "  composite flags " + flags(le(b[4:6]))]


def reply_lines(last, status, nmresp, data):
    name = f" {STATUSES[status]}" if status in STATUSES else ""
    at = f", byte {nmresp >> 8 & 0xFFFF}" if status == 4 else ""
    out = [f"reply: status {status:02X}h{name}{at}, NMRESP {nmresp:06X}h"]
    if status == 0 and last is None:
        return out + ([f"  data of an unknown request: {data.hex().upper()}"] if data else [])
    if status == 0 and last == 1:
        if len(data) < 8:
            return out + [f"  {Refused(3, len(data))}"]
        out, data = out + subsystem_lines(data[:8]), data[8:]
    if status == 0 and last == 2:
        count = nmresp >> 16
        out.append(f"  entries: {count}")
        for _ in range(count):
            if len(data) < 16:
                return out + [f"  {Refused(3, len(data))}"]
            out, data = out + entry_lines(data[:16]), data[16:]
    return out + ([f"  unexpected data: {data.hex().upper()}"] if data else [])


def number(text, top, base=10):
    try:
        value = int(text, base)
    except ValueError:
        raise LineError("a value is out of its range")
    if value > top:
        raise LineError("a value is out of its range")
    return value


D0 = {"sctlid": 0, "maxrent": 16, "incf": 24, "incpf": 25, "incvf": 26, "all": 31}
D1 = {"csts": 0, "ctemp": 1, "pdlu": 2, "spare": 3, "cwarn": 4, "clear": 31}
ASKED = {"controller-health-status-poll": (2, {"tag", *D0, *D1}), "subsystem-health-status-poll": (1, {"tag", "clear"}),
         "configuration-set": (3, {"tag", "flags"}), "configuration-get": (4, {"tag"})}


def ask(words):
    if words[0] not in ("endpoint", "tunnel"):
        raise LineError("a carrier is endpoint or tunnel")
    if words[1] not in ASKED:
        raise LineError("unknown command")
    opcode, names = ASKED[words[1]]
    tag, d0, d1 = 0, 2 if opcode in (3, 4) else 0, 0
    for word in words[2:]:
        name, equals, text = word.partition("=")
        if not equals or name not in names:
            raise LineError("a value is NAME=VALUE with a name of its command")
        if name == "flags":
            d1 = number(text, 0xFFFF, 16) & sum(1 << i for i, _ in FLAGS)
            continue
        value = number(text, {"sctlid": 65535, "maxrent": 255}.get(name, 1))
        if name == "tag":
            tag = value
        elif name in D0:
            d0 |= value << D0[name]
        else:
            d1 |= value << D1[name]
    dwords = d0.to_bytes(4, "little") + d1.to_bytes(4, "little")
    if words[0] == "endpoint":
        b = bytes([0x84, 8 + tag, 0, 0, opcode, 0, 0, 0]) + dwords
    else:
        b = bytearray(64)
        b[0], b[41], b[44], b[48:56] = 0x1D if opcode == 3 else 0x1E, 8, opcode, dwords
    return [b.hex().upper()]


def captured(last, words):
    if words[1] not in ("request", "reply"):
        raise LineError("a captured message is a request or a reply")
    try:
        if any(len(w) % 2 for w in words[2:]):
            raise ValueError
        b = bytes.fromhex("".join(words[2:]))
    except ValueError:
        raise LineError("bytes are pairs of hex digits")
    carrier = words[0]
    if words[1] == "reply":
        return reply_lines(last.get(carrier), *read_head(carrier, b))
    last[carrier] = None
    tag, meb, surplus, opcode, d0, d1 = read_request(carrier, b)
    if opcode in (1, 2) or opcode in (3, 4) and d0 & 255 == 2:
        last[carrier] = opcode
    return [f"request: tag {tag}, MEB {meb}, surplus bytes {surplus}",
            f"  opcode {opcode:02X}h, NMD0 {d0:08X}h, NMD1 {d1:08X}h"] + command_lines(opcode, d0, d1)


def main():
    last = {}
    for line in sys.stdin.read().splitlines():
        words = line.split()
        if not words or words[0].startswith("#"):
            continue
        print("> " + line)
        try:
            if words[0] == "ask":
                out = ask(words[1:])
            elif words[0] in ("endpoint", "tunnel"):
                out = captured(last, words)
            else:
                raise LineError("a line begins with endpoint, tunnel or ask")
        except Refused as refused:
            out = [str(refused)]
        except LineError as error:
            out = [f"error: {error}"]
        print("\n".join(out))


main()
