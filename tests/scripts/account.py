"""The account of the FIFO's bits (document 02, §10): eight times the bytes taken is the bits given to the frame reader, the bits
thrown away at stops and the bits still held, and the bits given are those taken, in order.

It is kept from a script's records and the answers to them alone. Of the chip that a call hands back it looks at the FIFO's level
and used bits, which are the bits still held. A run tells no reports, so where bytes may go to the FIFO it is played once more as
single steps on the same program; these have to give its samples and its chip.
"""
import struct

from images import SILENCE, STOP, rated, repeat, unvoiced, voiced
from programs import play
from script import CHIP_NUMBERS, MOST_SCRIPT_BYTES, WITH_CHIP, plain_power_up, records, step
from states import EXTERNAL, FIELDS, FIFO, FIFO_BYTES, LEAST_FIRST, MOST_FIRST, TMS5220, TMS5220C, WAITING

# the records that put another chip in the place of the one last handed back
RESTARTS = b'PQOS'
# middle codes
SPEAK_EXTERNAL, RESET, FRAME_RATES = 6, 7, (0, 2)
NOTHING, FRAME, STOPPED, RAN_OUT = range(4)
# what stands behind a step's report where there is none: no frame, and zeros
UNTOLD = b' '.join([b'0'] * 18)


class Fault(Exception):
    """The account does not hold. `record` is the number of the record, from 1."""

    def __init__(self, record, words):
        super().__init__(f'record {record}: {words}')
        self.record, self.words = record, words


def spoken(order, byte):
    """The bits of a byte as they leave the FIFO."""
    text = f'{byte:08b}'
    return text if order == MOST_FIRST else text[::-1]


def text_of(frame, rate, v):
    """The bits of a frame that is told by its 13 numbers; none if there is no such kind."""
    kind, energy, pitch, *ks = frame
    if kind not in range(1, 6):
        return ''
    text = (SILENCE, STOP, repeat(energy, pitch), unvoiced(energy, ks[:4]), voiced(energy, pitch, ks))[kind - 1]
    return rated(rate, text) if v else text


class Account:
    """One chip's account. `bits` are those that were taken and have neither been given nor thrown away, the next one first;
    `start` is how many were held where the account begins."""

    def __init__(self, device=TMS5220, order=LEAST_FIRST, v=0, on=False, bits=''):
        self.device, self.order, self.v, self.on, self.bits = device, order, v, on, bits
        self.start, self.taken, self.given, self.thrown = len(bits), 0, 0, 0

    def wrote(self, byte, refusal):
        """A refused byte counts nowhere; a taken one goes to the FIFO or is a command."""
        if refusal:
            return
        code = byte >> 4 & 7
        if self.on:
            self.taken += 1
            self.bits += spoken(self.order, byte)
        elif code == SPEAK_EXTERNAL:
            self.on = True
        elif code == RESET:
            self.v = 0
        elif code in FRAME_RATES and self.device == TMS5220C:
            self.v = byte >> 2 & 1

    def stepped(self, report, frame, rate, used, thrown):
        """What is wrong with a step that reports this, if anything is."""
        if (used and not (self.on and report == RAN_OUT)) or (thrown and not (self.on and report == STOPPED)):
            where = 'FIFO' if self.on else 'ROM'
            return f'a step with report {report} in speech from the {where} tells {used} bits used up and {thrown} thrown away'
        if not self.on or report == NOTHING:
            return ''
        if report != RAN_OUT:
            text = text_of(frame, rate, self.v)
            if not text or not self.bits.startswith(text):
                return f'the frame {frame} of {text or "no"} bits is given, where {self.bits or "nothing"} is held'
            used = len(text)
        if used + thrown > len(self.bits):
            return f'{used} bits are given and {thrown} thrown away, where {len(self.bits)} are held'
        self.bits = self.bits[used + thrown:]
        self.given += used
        self.thrown += thrown
        self.on = report == FRAME
        return ''

    def holds(self, held):
        """What is wrong with the sums if so many bits are held, if anything is."""
        if self.start + 8 * self.taken == self.given + self.thrown + held:
            return ''
        words = f'{self.taken} bytes are taken' + (f' and {self.start} bits were held' if self.start else '')
        return f'{words}, where {self.given} bits are given, {self.thrown} thrown away and {held} held'


def started(record):
    """The account of the chip that a record of RESTARTS puts there; none for a state whose FIFO cannot be, on which no call is
    taken."""
    if record[:1] != b'S':
        device, order = record[1:] if record[:1] == b'O' else (b'PQ'.index(record), LEAST_FIRST)
        return Account(device, order)
    fields = dict(zip(FIELDS, struct.unpack(f'<{CHIP_NUMBERS}q', record[1:])))
    level, used = fields['level'], fields['used']
    if not (0 <= level <= FIFO_BYTES and 0 <= used <= min(7, 8 * level)):
        return None
    bits = ''.join(spoken(fields['order'], fields[name]) for name in FIFO[:level])[used:]
    return Account(fields['device'], fields['order'], fields['v'], fields['mode'] in (WAITING, EXTERNAL), bits)


# ---- a script's records and their answers

class Call:
    """A record, its number from 1, and its answer: the line, and the chip's line if there is one. A run that was played as single
    steps also has their lines."""

    def __init__(self, number, record, lines):
        self.number, self.record, self.steps = number, record, None
        self.letter, self.line = record[:1], lines[0]
        self.chip = lines[-1] if self.letter in WITH_CHIP + b'S' else None

    def length(self):
        """The elements of a run that was taken; else none."""
        return struct.unpack('<I', self.record[1:])[0] if self.letter == b'U' and self.line.startswith(b'U 0 ') else 0


def calls_of(script, out):
    lines, at = out.split(b'\n'), 0
    for number, (start, end, _, more) in enumerate(records(script), 1):
        if len(lines) <= at + more:
            raise Fault(number, 'not answered')
        yield Call(number, script[start:end], lines[at:at + more])
        at += more


class Part:
    """The calls from one chip to the next, and the image and the voice file that stand before them."""

    def __init__(self, before, calls):
        self.before, self.calls = dict(before), calls

    def speaks(self):
        """The runs that are to be played as steps: those in which bytes may go to the FIFO, because Speak External, or a byte for
        the FIFO that looks like it, was taken before, or the chip was set to an external mode."""
        first = self.calls[0]
        on = first.letter == b'S' and first.record[1] in (WAITING, EXTERNAL)
        for call in self.calls:
            on = on or call.letter == b'W' and call.line == b'W 0' and call.record[1] >> 4 & 7 == SPEAK_EXTERNAL
            if on and call.length():
                yield call

    def unrolled(self, there):
        """What has to stand ahead of its records where this image and voice file are there, and the records themselves with
        steps in place of those runs."""
        ahead = b''.join(record for letter, record in self.before.items() if there.get(letter) != record)
        if self.calls[0].letter not in RESTARTS:
            ahead += plain_power_up()
        runs = {call.number: call.length() for call in self.speaks()}
        return ahead, b''.join(step(runs[call.number]) if call.number in runs else call.record for call in self.calls)

    def after(self):
        """The image and the voice file behind it."""
        return {**self.before, **{call.letter: call.record for call in self.calls if call.letter in b'IV'}}

    def answered(self, lines, at):
        """Its runs get the lines of their steps. All else has to be answered as it was. The first line that is not its own."""
        runs = {call.number for call in self.speaks()}
        for call in self.calls:
            if call.number in runs:
                call.steps = lines[at:at + 2 * call.length()]
                taken = [line.split(b' ', 3)[1:3] for line in call.steps[::2]]
                if taken != [[b'0', sample] for sample in call.line.split()[3:]] or call.steps[-1] != call.chip:
                    raise Fault(call.number, 'its steps give other samples or another chip than the run')
                at += len(call.steps)
                continue
            for line in (call.line, call.chip) if call.letter in WITH_CHIP else (call.line,):
                if lines[at] != line:
                    raise Fault(call.number, f'behind runs that are played as steps it is answered {lines[at]!r}')
                at += 1
        return at


def parts_of(calls):
    before, part = {}, Part({}, [])
    for call in calls:
        if call.letter in RESTARTS:
            yield part
            part = Part(before, [])
        part.calls.append(call)
        if call.letter in b'IV':
            before[call.letter] = call.record
    yield part


def play_steps(program, parts):
    """Plays the parts that have such runs once more, with steps in their place, as many parts at a time as a script holds."""
    waiting = [part for part in parts if any(part.speaks())]
    while waiting:
        batch, script, there = [], b'', {}
        for part in waiting:
            ahead, own = part.unrolled(there)
            if batch and len(script) + len(ahead) + len(own) > MOST_SCRIPT_BYTES:
                break
            batch.append((part, sum(more for *_, more in records(ahead))))
            script, there = script + ahead + own, part.after()
        assert len(script) <= MOST_SCRIPT_BYTES
        lines, at = play(program, script).split(b'\n'), 0
        if len(lines) - 1 != sum(more for *_, more in records(script)):
            raise Fault(batch[0][0].calls[0].number, 'from here on not all is answered where runs are played as steps')
        for part, ahead in batch:
            at = part.answered(lines, at + ahead)
        waiting = waiting[len(batch):]


# ---- the account

class Totals:
    """The sums of all accounts of some scripts; `start` is what was held where accounts begin with a state."""

    def __init__(self):
        self.start = self.taken = self.given = self.thrown = self.held = 0

    def add(self, other):
        self.start += other.start
        self.taken += other.taken
        self.given += other.given
        self.thrown += other.thrown
        self.held += other.held if isinstance(other, Totals) else len(other.bits)

    def __str__(self):
        return (f'{self.taken:,} bytes taken into the FIFO and {self.start:,} bits found there, '
                f'{self.given:,} given, {self.thrown:,} thrown away, {self.held:,} held')


def follow_step(account, line):
    """What is wrong with a step's answer, if anything is."""
    _, refusal, _, report, told = line.split(b' ', 4)
    if report == b'0':
        return '' if told == UNTOLD else 'a step without a report tells something'
    numbers = [int(number) for number in told.split()]
    if refusal != b'0' or len(numbers) != 18:
        return f'a step is answered {line.decode()}'
    return account.stepped(int(report), numbers[:13], numbers[13], numbers[15], numbers[17])


def follow_chip(account, line):
    """What is wrong with the sums at a chip's line, if anything is."""
    level, used = line.split(b' ', 9)[7:9]
    return account.holds(8 * int(level) - int(used))


def follow(part):
    """The account of a part's calls."""
    account = started(part.calls[0].record) if part.calls[0].letter in RESTARTS else Account()
    for call in part.calls if account else []:
        fault = ''
        if call.letter == b'W':
            account.wrote(call.record[1], int(call.line[2:]))
        elif call.letter == b'T':
            fault = follow_step(account, call.line)
        for at in range(0, len(call.steps or []), 2):
            fault = fault or follow_step(account, call.steps[at]) or follow_chip(account, call.steps[at + 1])
        fault = fault or (follow_chip(account, call.chip) if call.chip else '')
        if fault:
            raise Fault(call.number, fault)
    return account


def check(program, script, out):
    """The totals of a script that the program has answered so. A Fault is raised where the account does not hold."""
    totals = Totals()
    parts = [part for part in parts_of(calls_of(script, out)) if part.calls]
    play_steps(program, parts)
    for part in parts:
        account = follow(part)
        if account:
            totals.add(account)
    return totals
