"""The controller once more, written plainly in Python from docs/DEFINITIONS.md and docs/FORMATS.md. It shares no code with the product, and
judges it from outside: tools/random_runs reads what `rounds` prints and holds it against these rules.

Ticks are counted from 1. A word is a number of 64 bits. A side is 'A' or 'B', a kind one of KINDS.
"""
import tomllib
from dataclasses import dataclass, field
from typing import NamedTuple

KINDS = ["off", "full", "up", "down"]
OFF, FULL, UP, DOWN = range(4)
NORMAL, INSPECTION, EMERGENCY = range(3)
SIDES = "AB"

SOURCES = ["roof", "pit", "car", "doors", "panel", "platform"]
ROOF, PIT, CAR, DOORS, PANEL, PLATFORM = range(6)
OPTIONAL = [CAR, PLATFORM]
WIRES = ["panel_stop", "governor", "final_limit", "ascending", "buffers", "slack_rope", "pit_door", "up_limit", "down_limit", "reset",
         "pit_reset", "request"]
UP_LIMIT, DOWN_LIMIT, RESET, PIT_RESET, REQUEST = range(7, 12)
CONTACTS = WIRES[:7] + ["pit_stop", "roof_stop", "car_stop", "safety_gear", "car_door", "landing_doors", "landing_locks", "platform_stop"]
STATIONS = [ROOF, PIT, CAR, PLATFORM]

COMPARE, LOCKED, CONTACTOR_CLOSED, CHANGEOVER, CONTACTOR_OPEN = range(13, 18)
STALE, FORCED, KINDS_DIFFER, UNKNOWN = range(18, 22)
TEXTS = {0: "none own", 3: "K3 both_bypasses 5.12.1.8", 5: "K5 pit_latch 5.12.1.5", 6: "K6 doors_faulty 5.12.1.9", 8: "K8 monitor 5.12.1.8",
         9: "K9 buttons 5.12.1.5", 10: "K10 buttons 5.12.1.6", 11: "K11 request own", COMPARE: "compare own", LOCKED: "locked own",
         CONTACTOR_CLOSED: "contactor_closed own", CHANGEOVER: "changeover own", CONTACTOR_OPEN: "contactor_open own", STALE: "stale own",
         FORCED: "forced own", KINDS_DIFFER: "kinds_differ own"}

KEEP, FOLLOW = "keep", "follow"


def bit(word, i):
    return word >> i & 1 == 1


def other(side):
    return "B" if side == "A" else "A"


# ---- the script


class Refused(Exception):
    """The text of a refusal, without its line end."""


@dataclass
class SideFaults:
    fail: bool = False
    hold: bool = False
    exchange: bool = False
    publish: int | None = None
    command: int | None = None
    contactor: str | int = KEEP
    dismiss: bool = False
    give: int | None = None


class Input(NamedTuple):
    frames: list
    a: int
    b: int
    truth: tuple
    faults: dict


@dataclass
class Script:
    config: dict
    inputs: list = field(default_factory=list)


def number(text, low, high):
    """A decimal number without leading zeros, in a range; None for any other text."""
    if not text.isascii() or not text.isdigit() or (text[0] == "0" and text != "0") or not low <= int(text) <= high:
        return None
    return int(text)


def upper_hex(text, count):
    return int(text, 16) if len(text) == count and all(it in "0123456789ABCDEF" for it in text) else None


def head_of(text):
    """The settings of a head, or the name of its first bad key."""
    try:
        table = tomllib.loads(text)
    except tomllib.TOMLDecodeError:
        raise Refused("refused: head toml") from None
    config, taken = {}, set()

    def key(name, low, high, needed=True, identifier=False):
        value = table.pop(name, None)
        good = type(value) is int and low <= value <= high and not (identifier and (value % 2 == 0 or value in taken))
        if value is None and not needed:
            config[name] = None
        elif not good:
            raise Refused(f"refused: head {name}")
        else:
            config[name] = value
            if identifier:
                taken.add(value)

    key("version", 1, 2)
    key("ticks", 1, 100000 if config["version"] == 1 else 200000)
    key("sct", 1, 1000)
    key("srvt", 1, config["sct"])
    key("disc", 1, 1000)
    key("door_ticks", 1, 1000)
    for name in SOURCES[:5]:
        key(name, 0x101, 0x17F, needed=name != "car", identifier=True)
    config["platform"] = None
    if config["version"] == 2:
        key("platform", 0x101, 0x17F, needed=False, identifier=True)
    if table:
        raise Refused("refused: head extra")
    return config


def frame_of(text):
    """The identifier and the bytes of a frame, None where the text is no frame."""
    if len(text) < 4 or text[3] != "#" or upper_hex(text[:3], 3) is None or int(text[:3], 16) > 0x7FF:
        return None
    data = text[4:]
    if len(data) % 2 or len(data) > 16 or (data and upper_hex(data, len(data)) is None):
        return None
    return int(text[:3], 16), bytes.fromhex(data)


class Reader:
    """Takes the lines of a replay after its head, in order."""

    def __init__(self, config, places):
        self.script = Script(config)
        self.places = list(places)
        self.a = self.b = 0
        self.truth = [0] * 6
        self.failed = dict.fromkeys(SIDES, False)
        self.holds = dict.fromkeys(SIDES, False)
        self.next_tick()

    def next_tick(self):
        self.frames, self.faults = [], {side: SideFaults() for side in SIDES}
        self.seen = {side: set() for side in SIDES}
        self.others, self.waiting, self.wires_given, self.truth_given = 0, False, False, set()

    def ticks(self, n, at):
        if len(self.script.inputs) + n > self.script.config["ticks"]:
            raise Refused(f"refused: too_many {at}")
        quiet = {side: SideFaults() for side in SIDES}
        for k in range(n):
            self.script.inputs.append(Input(self.frames if k == 0 else [], self.a, self.b, tuple(self.truth),
                                            self.faults if k == 0 else quiet))
        self.next_tick()

    def line(self, text, at):
        """True where the line ends the script."""
        parts = text.split(" ")
        if text == "t" or (parts[0] == "t" and len(parts) == 2 and number(parts[1], 2, 200000)):
            self.ticks(1 if text == "t" else int(parts[1]), at)
            return False
        if text == "e":
            if self.waiting:
                raise Refused(f"refused: line {at}")
            return True
        if self.others == 64:
            raise Refused(f"refused: too_many {at}")
        self.others += 1
        if text == "" or text[0] == "#":
            return False
        if parts[0] == "f" and len(parts) == 2:
            if frame_of(parts[1]) and len(self.frames) == 16:
                raise Refused(f"refused: too_many {at}")
        if not self.takes(parts):
            raise Refused(f"refused: line {at}")
        self.waiting = True
        return False

    def takes(self, parts):
        """Whether the line is one of the form, and its rules allow it here; then it is taken."""
        match parts:
            case ["f", text] if (frame := frame_of(text)) is not None:
                self.frames.append(frame)
                return True
            case ["w", a, b] if upper_hex(a, 4) is not None and upper_hex(b, 4) is not None:
                good, self.wires_given = not self.wires_given, True
                self.a, self.b = int(a, 16), int(b, 16)
                return good
            case ["u", j, word] if number(j, 1, 6) is not None and upper_hex(word, 4) is not None:
                good = int(j) not in self.truth_given
                self.truth_given.add(int(j))
                self.truth[int(j) - 1] = int(word, 16)
                return good
            case [letter, side, *rest] if len(letter) == 1 and letter in "rxhpmcgd" and side in ("A", "B"):
                return self.takes_fault(letter, side, rest)
        return False

    def takes_fault(self, letter, side, rest):
        faults, seen = self.faults[side], self.seen[side]
        if letter in seen or "r" in seen or (letter in "rxhd") != (rest == []):
            return False
        failed, holds = self.failed[side], self.holds[side]
        if letter == "r":
            if not failed or seen:
                return False
            faults.exchange, self.failed[side], self.holds[side] = True, False, False
        elif letter == "x":
            if failed or "h" in seen:
                return False
            faults.fail, self.failed[side] = True, True
        elif letter == "h":
            if failed:
                return False
            faults.hold = True
        elif not failed or (letter != "d" and len(rest) != 1):
            return False
        elif letter in "pm":
            word = upper_hex(rest[0], 16)
            if word is None:
                return False
            if letter == "p":
                faults.publish = word
            else:
                faults.command = word
        elif letter == "c":
            if rest[0] not in KINDS + [FOLLOW]:
                return False
            faults.contactor = FOLLOW if rest[0] == FOLLOW else KINDS.index(rest[0])
        elif letter == "g":
            place = number(rest[0], 0, 254)
            if place is None or place >= len(self.places) or not self.places[place] or holds:
                return False
            faults.give, self.places[place], self.holds[side] = place, False, True
        else:
            if not holds or "g" in seen:
                return False
            faults.dismiss, self.holds[side] = True, False
        seen.add(letter)
        return True


def read_replay(text, places=(True, True, True)):
    """The script of a replay that a text means, for the places of a crew. Refused tells the refusal that the program prints."""
    lines = text.split("\n")
    if "%%" not in lines[:-1]:
        raise Refused("refused: no_end")
    end = lines.index("%%")
    reader = Reader(head_of("".join(it + "\n" for it in lines[:end])), places)
    for at, line in enumerate(lines[end + 1 :], end + 2):
        last = at == len(lines)
        if len(line.encode()) > 200:
            raise Refused(f"refused: long_line {at}")
        if last and line != "e":
            break
        if reader.line(line, at):
            return reader.script
    raise Refused("refused: no_end")


# ---- the frames of true words


def frames_due(config, cycle, truth, before, tick):
    """The frames of a tick, where these are the true words of it and of the tick before."""
    frames = []
    for j, name in enumerate(SOURCES, 1):
        if config[name] is None:
            continue
        if tick >= j and (tick - j) % cycle == 0:
            frames.append((config[name], truth[j - 1].to_bytes(2, "little")))
        if tick - 1 >= j and (tick - 1 - j) % cycle == 0:
            frames.append((config[name] + 1, (before[j - 1] ^ 0xFFFF).to_bytes(2, "little")))
    return frames


def simulated(text, cycle):
    """The status of `simulate` and what it prints, for a text without frames and lines of a side. Refused tells a refusal of the text."""
    script, before = read_replay(text), (0,) * 6
    if cycle > script.config["sct"] + 1:
        return 11, "refused: cycle\n"
    for tick, it in enumerate(script.inputs, 1):
        script.inputs[tick - 1] = it._replace(frames=frames_due(script.config, cycle, it.truth, before, tick))
        before = it.truth
    return 0, report_text(plain_path(verdicts(script)[0]))


# ---- what the clauses grant


class Verdict(NamedTuple):
    kind: int = OFF
    clause: int = 0
    detail: int = 0
    mode: int = NORMAL
    bypass: bool = False


class Source:
    """The live value of one source."""

    def __init__(self, identifier, config):
        self.identifier, self.sct, self.srvt = identifier, config["sct"], config["srvt"]
        self.last = []

    def take(self, tick, frame):
        if frame[0] in (self.identifier, self.identifier + 1):
            self.last = (self.last + [(tick, *frame)])[-3:]

    def pair(self, plain, inverted):
        (early, first, x), (late, second, y) = plain, inverted
        return (first == self.identifier and second == self.identifier + 1 and len(x) == len(y) == 2
                and all(p ^ q == 0xFF for p, q in zip(x, y)) and late - early <= self.srvt)

    def value(self, tick):
        """None where it is not live."""
        for rest in (0, 1):
            if len(self.last) < 2 + rest or (rest and self.last[-1][1] != self.identifier):
                continue
            plain, inverted = self.last[-2 - rest], self.last[-1 - rest]
            if self.pair(plain, inverted) and tick - inverted[0] <= self.sct:
                return plain[2][0] + 256 * plain[2][1]
        return None


class Watch:
    """The verdict of each tick in turn."""

    def __init__(self, config):
        self.config, self.tick = config, 0
        self.sources = [Source(config[name], config) if config[name] is not None else None for name in SOURCES]
        self.made = [False] * 12
        self.rows, self.fault = [0] * 12, False
        self.pit_latched = False
        self.door_row, self.doors_faulty = 0, False
        self.reset_rises = False

    def take(self, given):
        self.tick += 1
        for frame in given.frames:
            for source in self.sources:
                if source:
                    source.take(self.tick, frame)
        values = [source.value(self.tick) if source else None for source in self.sources]
        before = self.made
        self.made = [bit(given.a, i) and not bit(given.b, i) for i in range(12)]
        discrepant = [bit(given.a, i) == bit(given.b, i) for i in range(12)]
        self.reset_rises = self.made[RESET] and not before[RESET]
        pit_reset_rises = self.made[PIT_RESET] and not before[PIT_RESET]
        self.rows = [row + 1 if bad else 0 for row, bad in zip(self.rows, discrepant)]
        self.fault = any(row >= self.config["disc"] for row in self.rows) or (self.fault and not self.reset_rises)
        self.latch(values, pit_reset_rises)
        return self.verdict(values, discrepant)

    def latch(self, values, pit_reset_rises):
        pit, doors = values[PIT], values[DOORS]
        good = (pit_reset_rises and pit is not None and not bit(pit, 0) and bit(pit, 4)
                and doors is not None and bit(doors, 1) and bit(doors, 2))
        self.pit_latched = (pit is not None and bit(pit, 0)) or (self.pit_latched and not good)
        stuck = doors is not None and all(bit(doors, i) for i in (4, 5, 6)) and any(bit(doors, i) for i in range(4))
        self.door_row = self.door_row + 1 if stuck else 0
        self.doors_faulty = self.door_row >= self.config["door_ticks"] or (self.doors_faulty and not self.reset_rises)

    def is_contact_made(self, i, value):
        if i < 7:
            return self.made[i]
        if i in (9, 14) and self.sources[CAR if i == 9 else PLATFORM] is None:
            return True
        source, place = {7: (PIT, 4), 8: (ROOF, 4), 9: (CAR, 4), 10: (ROOF, 5), 11: (DOORS, 0), 12: (DOORS, 1), 13: (DOORS, 2),
                         14: (PLATFORM, 4)}[i]
        return value(source, place)

    def verdict(self, values, discrepant):
        def value(source, place):
            return values[source] is not None and bit(values[source], place)

        inspecting = [station for station in STATIONS if value(station, 0)]
        mode = INSPECTION if inspecting else EMERGENCY if value(PANEL, 0) else NORMAL
        over_car, over_landing = value(PANEL, 3), value(PANEL, 4)
        bypass = over_car or over_landing

        def off(clause, detail=0):
            return Verdict(OFF, clause, detail, mode, bypass)

        missing = [j for j, source in enumerate(self.sources) if source and values[j] is None]
        if missing:
            return off(1, missing[0] + 1)
        if any(discrepant):
            return off(2, discrepant.index(True))
        if self.fault:
            return off(2, 16)
        if over_car and over_landing:
            return off(3)
        if mode == NORMAL and bypass:
            return off(4, 1 if over_car else 2)
        if mode == NORMAL and self.pit_latched:
            return off(5)
        if mode == NORMAL and self.doors_faulty:
            return off(6)
        passed_by = self.passed_by(mode, over_car, over_landing)
        for i in range(len(CONTACTS)):
            if i not in passed_by and not self.is_contact_made(i, value):
                return off(7, i)
        if over_car and not value(DOORS, 3):
            return off(8)
        if mode == INSPECTION:
            ways = {self.button(value, station) for station in inspecting}
            if len(ways) != 1 or None in ways:
                return off(9)
            kind = ways.pop()
            if not self.made[UP_LIMIT if kind == UP else DOWN_LIMIT]:
                return off(12, 1 if kind == UP else 2)
        elif mode == EMERGENCY:
            if value(PANEL, 1) == value(PANEL, 2):
                return off(10)
            kind = UP if value(PANEL, 1) else DOWN
        else:
            if not self.made[REQUEST]:
                return off(11)
            kind = FULL
        return Verdict(kind, 0, 0, mode, bypass)

    @staticmethod
    def passed_by(mode, over_car, over_landing):
        """The contacts that are not looked at."""
        if mode == NORMAL:
            return []
        return [11] * over_car + [12, 13] * over_landing + [1, 2, 3, 4, 5, 10] * (mode == EMERGENCY)

    @staticmethod
    def button(value, station):
        if not value(station, 1) or value(station, 2) == value(station, 3):
            return None
        return UP if value(station, 2) else DOWN


def verdicts(script):
    """The verdicts at ticks 0, 1, .., and at which ticks the reset rises."""
    watch, given, rises = Watch(script.config), [Verdict()], [False]
    for it in script.inputs:
        given.append(watch.take(it))
        rises.append(watch.reset_rises)
    return given, rises


# ---- words, the decision, what a tick settles


def publish_word(stamp, verdict):
    return (stamp | verdict.kind << 24 | verdict.clause << 26 | verdict.detail << 32 | verdict.mode << 40 | verdict.bypass << 42)


def command_word(stamp, kind, reason=0, detail=0, alarm=False):
    return stamp | kind << 24 | reason << 26 | detail << 32 | alarm << 40


def stamp_of(word):
    return word & 0xFFFFFF


def kind_of(word):
    return word >> 24 & 3


def matches(seen, n, verdict, before):
    return seen in (publish_word(n, verdict), publish_word(n - 1, before))


@dataclass
class Supervisor:
    last: int = OFF
    misses: int = 0
    locked: bool = False
    on_open: int = 0
    off_closed: int = 0

    def decide(self, n, own, before, seen, closed, reset_rises):
        """The command word, and the number of the row that gave it."""
        match = matches(seen, n, own, before)
        self.misses = 0 if match else min(3, self.misses + 1)
        self.on_open = min(3, self.on_open + 1) if self.last != OFF and not all(closed) else 0
        self.off_closed = min(3, self.off_closed + 1) if self.last == OFF and any(closed) else 0
        row, word = self.row(n, own, match, closed, reset_rises)
        self.last = kind_of(word)
        return word, row

    def row(self, n, own, match, closed, reset_rises):
        if self.locked and reset_rises and not any(closed):
            self.locked, self.misses, self.on_open, self.off_closed = False, 0 if match else 1, 0, 0
            return 1, command_word(n, OFF, LOCKED)
        if self.locked:
            return 2, command_word(n, OFF, LOCKED)
        if self.misses == 3 or self.off_closed == 3:
            self.locked = True
            return 3, command_word(n, OFF, LOCKED)
        if own.kind == OFF:
            return 4, command_word(n, OFF, own.clause, own.detail)
        if not match:
            return 5, command_word(n, OFF, COMPARE)
        if self.on_open == 3:
            self.on_open = 0
            return 6, command_word(n, OFF, CONTACTOR_OPEN)
        if self.last == OFF and any(closed):
            return 7, command_word(n, OFF, CONTACTOR_CLOSED)
        if self.last not in (OFF, own.kind):
            return 8, command_word(n, OFF, CHANGEOVER)
        return 9, command_word(n, own.kind, alarm=own.bypass)


def is_fresh(word, tick):
    return max(0, tick - 2) <= stamp_of(word) <= tick


@dataclass
class Side:
    failed: bool = False
    publish: int = 0
    command: int = 0
    seen: int = 0
    contactor: str | int = FOLLOW
    supervisor: Supervisor = field(default_factory=Supervisor)
    plan: object = None

    def output(self, tick):
        if self.contactor != FOLLOW:
            return self.contactor
        return kind_of(self.command) if is_fresh(self.command, tick) else OFF


class Settled(NamedTuple):
    power: int
    alarm: bool
    reason: tuple


NOTHING = Settled(OFF, False, (0, 0))


def settle(tick, sides):
    outputs = [sides[side].output(tick) for side in SIDES]
    power = outputs[0] if outputs[0] == outputs[1] else OFF
    alarm = power != OFF and any(bit(sides[side].command, 40) for side in SIDES)
    return Settled(power, alarm, (0, 0) if power != OFF else reason_of(tick, sides, outputs))


def plain_path(given):
    """What each tick settles where nothing disturbs a run: its power, its alarm, and its reason."""
    path, due, reason, alarm = [], OFF, (0, 0), False
    for verdict in given[1:]:
        path.append(Settled(due, alarm, reason))
        changes = due not in (OFF, verdict.kind)
        due = OFF if changes else verdict.kind
        reason = (0, 0) if due != OFF else (CHANGEOVER, 0) if verdict.kind != OFF else (verdict.clause, verdict.detail)
        alarm = due != OFF and verdict.bypass
    return path


def reason_of(tick, sides, outputs):
    if OFF not in outputs:
        return KINDS_DIFFER, 0
    side = sides[SIDES[outputs.index(OFF)]]
    if side.contactor != FOLLOW:
        return FORCED, 0
    if not is_fresh(side.command, tick):
        return STALE, 0
    code = side.command >> 26 & 63
    return (UNKNOWN, 0) if code > 17 else (code, side.command >> 32 & 255)


def text_of(reason):
    code, detail = reason
    if code in TEXTS:
        return TEXTS[code]
    if code == 1 and 1 <= detail <= 6:
        return f"K1 {SOURCES[detail - 1]} EN 50325-5"
    if code == 2 and (detail < 12 or detail == 16):
        return f"K2 {'fault' if detail == 16 else WIRES[detail]} own"
    if code == 4 and detail in (1, 2):
        return f"K4 {['bypass_car', 'bypass_landing'][detail - 1]} 5.12.1.8"
    if code == 7 and detail < 15:
        return f"K7 {CONTACTS[detail]} 5.11.2"
    if code == 12 and detail in (1, 2):
        return f"K12 {['up_limit', 'down_limit'][detail - 1]} 5.12.1.5"
    return "unknown own"


def changes_of(path):
    last = NOTHING
    for tick, settled in enumerate(path, 1):
        if (settled.power, settled.alarm) != (last.power, last.alarm):
            yield tick, settled
        last = settled


def last_line(path):
    on = sum(settled.power != OFF for settled in path)
    return f"ticks {len(path)} on {on} changes {sum(1 for _ in changes_of(path))}\n"


def report_text(path):
    text = ""
    for tick, settled in changes_of(path):
        if settled.power == OFF:
            text += f"{tick} off {text_of(settled.reason)}\n"
        else:
            text += f"{tick} {KINDS[settled.power]}{' alarm' if settled.alarm else ''}\n"
    return text + last_line(path)


# ---- rounds


class Turn(NamedTuple):
    word: str
    publish: int | None = None
    seen: int | None = None
    command: int | None = None


def turn_of(parts):
    """One turn of a line of `rounds`, taken from the front of its parts."""
    word = parts.pop(0)
    if word == "held":
        return Turn(word)
    publish, seen, command = (None if it == "-" else upper_hex(it, 16) for it in (parts.pop(0), parts.pop(0), parts.pop(0)))
    return Turn(word, publish, seen, command)


def read_rounds(text):
    """The power and both turns of each tick that `rounds` printed, and its last line."""
    lines = text.split("\n")
    assert lines[-1] == "", "the text ends with a line end"
    rounds = []
    for tick, line in enumerate(lines[:-2], 1):
        parts = line.split(" ")
        assert parts[:1] == [str(tick)] and parts[2] == "A", line
        power, parts = KINDS.index(parts[1]), parts[3:]
        a = turn_of(parts)
        assert parts.pop(0) == "B", line
        b = turn_of(parts)
        assert not parts, line
        rounds.append((power, {"A": a, "B": b}))
    return rounds, lines[-2] + "\n"


class Tape:
    """Deeds in order, each a publish word, a command word and an order; then nothing."""

    def __init__(self, deeds):
        self.deeds = list(deeds)

    def act(self, seen):
        return self.deeds.pop(0) if self.deeds else (None, None, KEEP)


class Mask:
    """Both words are the seen word with these bits inverted."""

    def __init__(self, bits):
        self.bits = bits

    def act(self, seen):
        return seen ^ self.bits, seen ^ self.bits, KEEP


def crew():
    """The crew of the program."""
    return [Tape([(2**64 - 1, None, FULL)]), Mask(0), Mask(2**64 - 1)]


class Judge:
    """Holds each round against the rules, and counts what it saw. An AssertionError tells the first that is broken."""

    def __init__(self, script):
        self.script = script
        self.granted, self.rises = verdicts(script)
        self.sides = {side: Side() for side in SIDES}
        self.crew = crew()
        self.path = []
        self.steps = []
        self.seen_old = self.lock_outs = self.repairs = self.on = 0

    def round(self, power, turns):
        tick = len(self.path) + 1
        given = self.script.inputs[tick - 1]
        settled = settle(tick, self.sides)
        assert settled.power == power, f"tick {tick}: power {KINDS[power]}, and {KINDS[settled.power]} by the rules"
        self.is_backed(tick, power)
        self.path.append(settled)
        closed = [self.sides[side].output(tick) != OFF for side in SIDES]
        before = {side: self.sides[side].publish for side in SIDES}
        acts = {}
        for side in SIDES:
            self.prepare(side, given.faults[side])
        states = {side: self.state(side, given.faults[side]) for side in SIDES}
        after = {side: turns[side].publish if turns[side].publish is not None else before[side] for side in SIDES}
        for side in SIDES:
            acts[side] = self.turn(tick, side, states[side], turns[side], given.faults[side], closed, before, after)
        saw_old = {side: states[side] == "ok" and turns[side].seen != after[other(side)] for side in SIDES}
        if states == {"A": "ok", "B": "ok"}:
            assert not all(saw_old.values()), f"tick {tick}: both sides saw a word from before the other's store"
        self.seen_old += sum(saw_old.values())
        self.steps.append(self.events(given.faults, states, saw_old, acts))

    def prepare(self, side, faults):
        it = self.sides[side]
        if faults.fail:
            it.failed = True
        if faults.dismiss:
            it.plan = None
        if faults.give is not None:
            it.plan, self.crew[faults.give] = self.crew[faults.give], None

    def state(self, side, faults):
        if faults.exchange:
            return "exchanged"
        return "held" if faults.hold else "failed" if self.sides[side].failed else "ok"

    def turn(self, tick, side, state, turn, faults, closed, before, after):
        """Checks one side's turn and takes it; answers what it did as steps of a schedule."""
        it, where = self.sides[side], f"tick {tick}, side {side}"
        assert turn.word == ("ok" if state == "exchanged" else state), f"{where}: {turn.word}, and {state} by the script"
        if state == "held":
            return []
        if state == "exchanged":
            assert turn == Turn("ok", 0, 0, 0), f"{where}: an exchanged side has words"
            self.sides[side] = Side(supervisor=Supervisor(locked=True))
            return [f"r {side}"]
        peer = other(side)
        assert turn.seen in (before[peer], after[peer]), f"{where}: saw {turn.seen:016X}"
        if state == "ok":
            return self.healthy(tick, side, turn, closed, where)
        deed = it.plan.act(turn.seen) if it.plan else (None, None, KEEP)
        publish = faults.publish if faults.publish is not None else deed[0]
        command = faults.command if faults.command is not None else deed[1]
        order = faults.contactor if faults.contactor != KEEP else deed[2]
        assert (turn.publish, turn.command) == (publish, command), f"{where}: other words than the script's and the object's"
        acts = []
        if publish is not None:
            it.publish = publish
            acts.append(f"p {side} {publish:016X}")
        if command is not None:
            it.command = command
            acts.append(f"m {side} {command:016X}")
        if order != KEEP:
            it.contactor = order
            acts.append(f"c {side} {FOLLOW if order == FOLLOW else KINDS[order]}")
        return acts

    def healthy(self, tick, side, turn, closed, where):
        it = self.sides[side]
        own, before = self.granted[tick], self.granted[tick - 1]
        assert turn.publish == publish_word(tick, own), f"{where}: published {turn.publish:016X}"
        was = it.supervisor.locked
        word, row = it.supervisor.decide(tick, own, before, turn.seen, closed, self.rises[tick])
        assert turn.command == word, f"{where}: commanded {turn.command:016X}, and {word:016X} by the rules"
        self.lock_outs += it.supervisor.locked and not was
        self.repairs += row == 1
        it.publish, it.command, it.seen = turn.publish, word, turn.seen
        return [f"{step} {side}" for step in "sqlk"]

    def is_backed(self, tick, power):
        """Power was granted one or two ticks before, and each healthy side saw the other's word agree."""
        if power == OFF:
            return
        self.on += 1
        for side, it in self.sides.items():
            if it.failed:
                continue
            n = stamp_of(it.command)
            assert n in (tick - 1, tick - 2) and self.granted[n].kind == power, f"tick {tick}: {KINDS[power]} was not granted to {side}"
            assert matches(it.seen, n, self.granted[n], self.granted[n - 1]), f"tick {tick}: {side} did not see the other agree"

    @staticmethod
    def events(faults, states, saw_old, acts):
        """The same round as steps of a schedule, after its tick."""
        steps = [f"x {side}" for side in SIDES if faults[side].fail]
        if states == {"A": "ok", "B": "ok"}:
            if saw_old["A"]:
                return steps + ["s A", "q A", "l A", "s B", "q B", "l B", "k A", "k B"]
            if saw_old["B"]:
                return steps + ["s B", "q B", "l B", "s A", "q A", "l A", "k B", "k A"]
            return steps + [f"{step} {side}" for step in "sqlk" for side in SIDES]
        healthy = [side for side in SIDES if states[side] == "ok"]
        if healthy and not saw_old[healthy[0]]:
            return steps + acts[other(healthy[0])] + acts[healthy[0]]
        if healthy:
            return steps + acts[healthy[0]] + acts[other(healthy[0])]
        return steps + acts["A"] + acts["B"]


def judge(text, rounds_text):
    """Holds the rounds of a script against the rules."""
    script = read_replay(text)
    rounds, last = read_rounds(rounds_text)
    judge = Judge(script)
    assert len(rounds) == len(script.inputs), "a round for each tick"
    for power, turns in rounds:
        judge.round(power, turns)
    assert last == last_line(judge.path), "the last line"
    return judge


def as_schedule(head, script, steps):
    """The text of a schedule with the inputs of a script and these steps after each tick."""
    lines, a, b, truth = [], 0, 0, (0,) * 6
    for given, after in zip(script.inputs, steps):
        lines += [f"f {identifier:03X}#{data.hex().upper()}" for identifier, data in given.frames]
        if (given.a, given.b) != (a, b):
            lines.append(f"w {given.a:04X} {given.b:04X}")
        lines += [f"u {j + 1} {word:04X}" for j, word in enumerate(given.truth) if word != truth[j]]
        a, b, truth = given.a, given.b, given.truth
        lines += ["t", *after]
    return head + "".join(line + "\n" for line in lines + ["e"])
