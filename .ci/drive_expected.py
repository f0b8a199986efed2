#!/usr/bin/env python3
"""An independent model, written from docs/HEALTH_POLLING.md: what `drive` must answer to the script on standard input.

    .ci/drive_expected.py <crates/drive/stdin | diff - crates/drive/stdout

A script has one call a line, its fields parted by ASCII white space (space, tab, form feed, carriage return). Blank lines,
and lines whose first field begins with #, get no answer. Every other line gets one line:

    register inline                     granted; a new subsystem is fitted out, with the lengths of memory as at the start
    rows N, ports N, reply N            granted; how much memory is lent from there on (at the start 32, 8 and 4168)
    responder KIND                      granted NUMBER
    controller ID TYPE STATUS TEMP USED SPARE WARNING
    port ID
    open
    report ID STATUS TEMP USED SPARE WARNING
    link ID up|down
    status FUNCTIONAL RESET_NOT_REQUIRED SANITIZE_FAILED
    request R endpoint|tunnel HEX       granted and the reply's bytes; without HEX the request has no bytes
    reset R
    gained OLDSTATUS OLDTEMP OLDUSED OLDSPARE OLDWARNING STATUS TEMP USED SPARE WARNING     four hex digits alone
    code TEMP                           two hex digits alone

The others answer `granted`, and all that can be refused `refused NUMBER layer LAYER place PLACE`. `misuse` is the answer to
a call out of phase: responder, controller, port and open want a subsystem that is fitted out, report, link, status, request
and reset one in service, which it is from a granted `open` on. The script begins as after `register inline`.

STATUS is four hex digits, WARNING two, a flag of `status` 0 or 1, HEX pairs of hex digits; a hex digit may be a small
letter. Other numbers are decimal, one digit or more and nothing else: ID of a controller and TEMP up to 65535; KIND, TYPE,
ID of a port, R, USED and SPARE up to 255; rows up to 64, ports up to 16, reply up to 4176, which is all the memory there is.

A line that is no call changes nothing and gets an `error` line, in both phases. Fields are read from left to right, and
the first at fault is named:

    error not UTF-8 text                    the line as a whole, whatever it begins with
    error unknown call                      the first field
    error missing field                     the line ends too early
    error surplus field                     the line goes on behind its last field
    error not a number in its range
    error not a status of four hex digits
    error not a warning of two hex digits
    error not 0 or 1
    error not up or down
    error not a carrier                     neither endpoint nor tunnel
    error not a register                    not inline (`register memory N` is not there yet, so it gets this too)
    error bytes are pairs of hex digits     HEX
"""
import re
import sys

# changed flags and status bits by number
RDY, CFS, SHST, NSSRO, CECO, NAC, FA, CSTS, CTEMP, PDLU, SPARE, CWARN, TCIDA = 0, 1, 2, 4, 5, 6, 7, 8, 9, 10, 11, 12, 13
# the flag that the status event in a status bit sets
EVENT_FLAG = {6: NAC, 7: FA, 8: TCIDA}
# the flag that a selection bit of a Controller Health Status Poll looks at
SELECTED = {0: CSTS, 1: CTEMP, 2: PDLU, 3: SPARE, 4: CWARN}
# the bit of NMD0 that includes a type of function
INCLUDED = {0: 24, 1: 25, 2: 26}
KINDS = {"endpoint": 1, "tunnel": 2}
MOST = {"rows": 64, "ports": 16, "reply": 4176}
AT_START = {"rows": 32, "ports": 8, "reply": 4168}
CAPACITY = 4


class LineError(Exception):
    pass


class Misuse(Exception):
    pass


class Refused(Exception):
    def __init__(self, number, layer, place):
        super().__init__(f"refused {number} layer {layer} place {place}")


class ErrorReply(Exception):
    def __init__(self, status, byte=0):
        self.status, self.byte = status, byte


def bits_of(word):
    return {i for i in range(32) if word >> i & 1}


def word_of(bits):
    return sum(1 << i for i in bits)


def malformed(status, warning):
    return status >> 9 != 0 or warning >> 6 != 0


def gained(old, new):
    """The flags that a report gains. Both are (status, temperature, used, spare, warning)."""
    was, is_now = bits_of(old[0]), bits_of(new[0])
    differing = (was ^ is_now) & {0, 1, 2, 3, 4, 5}
    events = is_now & set(EVENT_FLAG)
    flags = differing & {RDY, CFS, CECO}
    if differing & {2, 3}:
        flags.add(SHST)
    if 4 in is_now and 4 not in was:
        flags.add(NSSRO)
    flags |= {EVENT_FLAG[bit] for bit in events}
    if differing or events:
        flags.add(CSTS)
    for field, flag in enumerate((CTEMP, PDLU, SPARE, CWARN), 1):
        if old[field] != new[field]:
            flags.add(flag)
    return flags


def temperature_code(kelvins):
    if kelvins == 0:
        return 0x80
    celsius = kelvins - 273
    if celsius >= 127:
        return 0x7F
    if celsius <= -60:
        return 0xC4
    return celsius if celsius >= 0 else 256 + celsius


class Controller:
    def __init__(self, function, health):
        self.function, self.health = function, health  # health: levels, temperature, used, spare, warning


class Responder:
    """What one Responder keeps: its composite flags, and for each Controller ID its flags and its copies of the events."""

    def __init__(self, kind):
        self.kind = kind
        self.clear_all()

    def clear_all(self):
        self.composite, self.flags, self.events = set(), {}, {}

    def flags_at(self, controller_id):
        return self.flags.get(controller_id, set())

    def events_at(self, controller_id):
        return self.events.get(controller_id, set())

    def take(self, controller_id, flags, events):
        self.composite |= flags - self.flags_at(controller_id)
        self.flags[controller_id] = self.flags_at(controller_id) | flags
        self.events[controller_id] = self.events_at(controller_id) | events

    def clear(self, controller_id):
        self.flags.pop(controller_id, None)
        self.events.pop(controller_id, None)


def read_request(carrier, message):
    """(tag, MEB, surplus, opcode, NMD0, NMD1)"""
    if carrier == "endpoint":
        if len(message) < 16:
            raise Refused(3, 3, len(message))
        if message[0] != 0x84:
            raise Refused(4, 3, 0)
        if message[1] & 0xF8 != 0x08:
            raise Refused(5, 3, 1)
        dwords = message[8:16]
        tag, meb, surplus, opcode = message[1] % 2, message[2] % 2, message[16:], message[4]
    else:
        if len(message) != 64:
            raise Refused(3, 3, len(message))
        if message[0] not in (0x1D, 0x1E):
            raise Refused(4, 3, 0)
        if message[41] & 0xF8 != 0x08:
            raise Refused(5, 3, 41)
        opcode = message[44]
        if message[0] != (0x1D if opcode == 3 else 0x1E):
            raise Refused(6, 3, 44)
        dwords = message[48:56]
        tag, meb, surplus = 0, 0, b""
    return tag, meb, surplus, opcode, int.from_bytes(dwords[:4], "little"), int.from_bytes(dwords[4:], "little")


def head(carrier, tag, status, nmresp):
    body = bytes([status]) + nmresp.to_bytes(3, "little")
    return bytes([0x84, 0x88 + tag, 0, 0]) + body if carrier == "endpoint" else body


class Subsystem:
    def __init__(self):
        self.in_service = False
        self.responders, self.controllers, self.links = [], {}, {}
        self.functional, self.reset_not_required, self.sanitize_failed = 1, 1, 0
        self.lent = dict(AT_START)

    def want(self, memory, needed):
        if self.lent[memory] < needed:
            raise Refused(1, 1, needed)

    def want_rows(self):
        self.want("rows", len(self.responders) * len(self.controllers))

    # fitting out

    def responder(self, kind):
        if kind == 0:
            raise Refused(8, 1, 0)
        if len(self.responders) == 8:
            raise Refused(25, 1, 8)
        self.responders.append(Responder(kind))
        return len(self.responders) - 1

    def controller(self, controller_id, function, status, temperature, used, spare, warning):
        if function > 2 or malformed(status, warning) or status >> 6:
            raise Refused(7, 1, controller_id)
        if controller_id in self.controllers:
            raise Refused(22, 2, controller_id)
        if len(self.controllers) == CAPACITY:
            raise Refused(23, 2, CAPACITY)
        self.controllers[controller_id] = Controller(function, (status, temperature, used, spare, warning))

    def port(self, port_id):
        if len(self.links) == 8:
            raise Refused(27, 1, 8)
        self.want("ports", len(self.links) + 1)
        if port_id in self.links:
            raise Refused(22, 1, port_id)
        self.links[port_id] = 0

    def open(self):
        if not self.controllers or not self.responders:
            raise Refused(26, 1, 0)
        self.want_rows()
        self.in_service = True

    # service

    def report(self, controller_id, status, temperature, used, spare, warning):
        if malformed(status, warning):
            raise Refused(7, 1, controller_id)
        self.want_rows()
        if controller_id not in self.controllers:
            raise Refused(24, 1, controller_id)
        controller = self.controllers[controller_id]
        flags = gained(controller.health, (status, temperature, used, spare, warning))
        controller.health = (status % 64, temperature, used, spare, warning)
        for responder in self.responders:
            responder.take(controller_id, flags, bits_of(status) & set(EVENT_FLAG))

    def link(self, port_id, up):
        self.want("ports", len(self.links))
        if port_id not in self.links:
            raise Refused(24, 1, port_id)
        self.links[port_id] = up

    def status(self, functional, reset_not_required, sanitize_failed):
        self.functional, self.reset_not_required, self.sanitize_failed = functional, reset_not_required, sanitize_failed

    def reset(self, number):
        if number >= len(self.responders):
            raise Refused(20, 1, number)
        self.want_rows()
        self.responders[number].clear_all()

    def request(self, number, carrier, message):
        if number >= len(self.responders):
            raise Refused(20, 1, number)
        responder = self.responders[number]
        if responder.kind != KINDS[carrier]:
            raise Refused(21, 1, number)
        self.want_rows()
        self.want("ports", len(self.links))
        needed = len(head(carrier, 0, 0, 0)) + 4080
        if self.lent["reply"] < needed:
            raise Refused(2, 1, needed)
        tag, meb, surplus, opcode, nmd0, nmd1 = read_request(carrier, message)
        try:
            if surplus:
                raise ErrorReply(5)
            if meb:
                raise ErrorReply(4, 2)
            count, data = self.command(responder, opcode, nmd0, nmd1)
        except ErrorReply as error:
            return head(carrier, tag, error.status, error.byte * 256)
        return head(carrier, tag, 0, count << 16) + data

    def command(self, responder, opcode, nmd0, nmd1):
        """The number of entries, and the data."""
        if opcode == 1:
            return 0, self.subsystem_poll(responder, nmd1 >> 31)
        if opcode == 2:
            entries = self.controller_poll(responder, nmd0, nmd1)
            return len(entries), b"".join(entries)
        if opcode not in (3, 4):
            raise ErrorReply(3)
        if nmd0 % 256 != 2:
            raise ErrorReply(4, 8)
        if opcode == 3:
            responder.composite -= bits_of(nmd1 % 65536)
        return 0, b""

    def subsystem_poll(self, responder, clear):
        lowest = [self.links[port_id] for port_id in sorted(self.links)] + [0, 0]
        first = (self.sanitize_failed << 6 | self.functional << 5 | self.reset_not_required << 4
                 | lowest[0] << 3 | lowest[1] << 2)
        healths = [controller.health for controller in self.controllers.values()]
        warnings = set().union(*(bits_of(health[4]) for health in healths))
        data = bytes([first, 255 - word_of(warnings), temperature_code(max(health[1] for health in healths)),
                      max(health[2] for health in healths)]) + word_of(responder.composite).to_bytes(2, "little") + bytes(2)
        if clear:
            responder.composite = set()
        return data

    def controller_poll(self, responder, nmd0, nmd1):
        sctlid, maxrent = nmd0 % 65536, nmd0 >> 16 & 255
        if sctlid > max(self.controllers):
            raise ErrorReply(4, 8)
        if maxrent == 255:
            raise ErrorReply(4, 10)
        selected = {flag for bit, flag in SELECTED.items() if nmd1 >> bit & 1}
        returned = []
        for controller_id in sorted(self.controllers):
            included = nmd0 >> INCLUDED[self.controllers[controller_id].function] & 1
            wanted = nmd0 >> 31 or selected & responder.flags_at(controller_id)
            if controller_id >= sctlid and included and wanted and len(returned) < maxrent + 1:
                returned.append(controller_id)
        entries = [self.entry(responder, controller_id) for controller_id in returned]
        if nmd1 >> 31:
            for controller_id in returned:
                responder.clear(controller_id)
        return entries

    def entry(self, responder, controller_id):
        levels, temperature, used, spare, warning = self.controllers[controller_id].health
        status = levels + word_of(responder.events_at(controller_id))
        return (controller_id.to_bytes(2, "little") + status.to_bytes(2, "little") + temperature.to_bytes(2, "little")
                + bytes([used, spare, warning]) + word_of(responder.flags_at(controller_id)).to_bytes(2, "little") + bytes(5))


class Fields:
    """The fields of a line, read from left to right."""

    def __init__(self, fields):
        self.fields = fields

    def next(self):
        if not self.fields:
            raise LineError("missing field")
        return self.fields.pop(0)

    def end(self):
        if self.fields:
            raise LineError("surplus field")

    def number(self, most):
        field = self.next()
        value = field.lstrip("0") or "0"
        if any(c not in "0123456789" for c in field) or len(value) > 5 or int(value) > most:
            raise LineError("not a number in its range")
        return int(value)

    def hex(self, digits, otherwise):
        field = self.next()
        if len(field) != digits or any(c not in "0123456789ABCDEFabcdef" for c in field):
            raise LineError(otherwise)
        return int(field, 16)

    def one_of(self, values, otherwise):
        field = self.next()
        if field not in values:
            raise LineError(otherwise)
        return values[field]

    def flag(self):
        return self.one_of({"0": 0, "1": 1}, "not 0 or 1")

    def status(self):
        return self.hex(4, "not a status of four hex digits")

    def report(self):
        return (self.status(), self.number(65535), self.number(255), self.number(255),
                self.hex(2, "not a warning of two hex digits"))

    def bytes(self):
        if not self.fields:
            return b""
        field = self.next()
        if len(field) % 2 or any(c not in "0123456789ABCDEFabcdef" for c in field):
            raise LineError("bytes are pairs of hex digits")
        return bytes.fromhex(field)


FITTING_OUT = {
    "responder": lambda f: (f.number(255),),
    "controller": lambda f: (f.number(65535), f.number(255)) + f.report(),
    "port": lambda f: (f.number(255),),
    "open": lambda f: (),
}
SERVICE = {
    "report": lambda f: (f.number(65535),) + f.report(),
    "link": lambda f: (f.number(255), f.one_of({"up": 1, "down": 0}, "not up or down")),
    "status": lambda f: (f.flag(), f.flag(), f.flag()),
    "request": lambda f: (f.number(255), f.one_of({k: k for k in KINDS}, "not a carrier"), f.bytes()),
    "reset": lambda f: (f.number(255),),
}
ALWAYS = {
    "register": lambda f: (f.one_of({"inline": "inline"}, "not a register"),),
    "rows": lambda f: (f.number(MOST["rows"]),),
    "ports": lambda f: (f.number(MOST["ports"]),),
    "reply": lambda f: (f.number(MOST["reply"]),),
    "gained": lambda f: (f.report(), f.report()),
    "code": lambda f: (f.number(65535),),
}


class Console:
    def __init__(self):
        self.subsystem = Subsystem()

    def answer(self, call, fields):
        for calls in (FITTING_OUT, SERVICE, ALWAYS):
            if call in calls:
                arguments = calls[call](fields)
                fields.end()
                return self.setting(call, *arguments) if calls is ALWAYS else self.call(call, calls is SERVICE, arguments)
        raise LineError("unknown call")

    def call(self, call, of_service, arguments):
        if of_service != self.subsystem.in_service:
            raise Misuse
        result = getattr(self.subsystem, call)(*arguments)
        if isinstance(result, bytes):
            result = result.hex().upper()
        return "granted" if result is None else f"granted {result}"

    def setting(self, call, *arguments):
        if call == "code":
            return f"{temperature_code(*arguments):02X}"
        if call == "gained":
            old, new = arguments
            return "FFFF" if malformed(new[0], new[4]) else f"{word_of(gained(old, new)):04X}"
        if call == "register":
            self.subsystem = Subsystem()
        else:
            self.subsystem.lent[call] = arguments[0]
        return "granted"


def answer_line(console, line):
    """The answer to a line of bytes; None where it gets none."""
    try:
        fields = [field for field in re.split("[ \t\n\f\r]+", line.decode()) if field]
        if not fields or fields[0].startswith("#"):
            return None
        return console.answer(fields[0], Fields(fields[1:]))
    except UnicodeDecodeError:
        return "error not UTF-8 text"
    except LineError as error:
        return f"error {error}"
    except Misuse:
        return "misuse"
    except Refused as refused:
        return str(refused)


def main():
    console = Console()
    for line in sys.stdin.buffer:
        answer = answer_line(console, line)
        if answer is not None:
            print(answer, flush=True)


if __name__ == "__main__":
    main()
