"""States of the chip for S records: valid ones, and ones that break a range (01, "State ranges"; 02, §5, §3, §9 and §12)."""

IDLE, ROM, WAITING, EXTERNAL = range(4)
TMS5220, TMS5220C = range(2)
# the FIFO's bit orders
LEAST_FIRST, MOST_FIRST = range(2)
FIFO_BYTES = 16
LAST_POSITION = 2097152

FIFO = [f'fifo {i}' for i in range(1, FIFO_BYTES + 1)]


def values(whose):
    return [f'{whose} energy', f'{whose} pitch'] + [f'{whose} K{i}' for i in range(1, 11)]


CURRENT, TARGET = values('current'), values('target')
MEMORY = [f'memory {i}' for i in range(1, 11)]
SOUND = ['sample', 'interval', 'noise', 'place'] + CURRENT + TARGET + MEMORY
# the order of the trace format's table
OF_01 = ['mode', 'position', 'nibble', 'pending', 'data', 'interrupt', 'level', 'used'] + FIFO + ['sounding'] + SOUND
FIELDS = OF_01 + ['device', 'v', 'rr', 'hold', 'order', 'busy']

# the ranges that hold in every mode
RANGES = {'position': (0, LAST_POSITION), 'nibble': (0, 4), 'sample': (0, 24), 'interval': (0, 7), 'noise': (1, 8191),
          'place': (0, 1022)}
for name in CURRENT + TARGET:
    RANGES[name] = (-512, 511) if 'K' in name else (0, 1023)
for name in MEMORY:
    RANGES[name] = (-8192, 8191)
# those of the TMS5220C alone; the TMS5220 has no rate
RATES = {'v': (0, 1), 'rr': (0, 3)}

# what an S record may hold
FORMAT = {name: (0, 32767) for name in ['noise', 'place'] + CURRENT + TARGET}
FORMAT.update({name: (-32768, 32767) for name in CURRENT[2:] + TARGET[2:] + MEMORY})
FORMAT.update({name: (0, 255) for name in ['nibble', 'data', 'level', 'used', 'sample', 'interval', 'v', 'rr', 'busy'] + FIFO})
FORMAT.update({name: (0, 1) for name in ['pending', 'interrupt', 'sounding', 'device', 'hold', 'order']})
FORMAT.update({'mode': (0, 3), 'position': (0, 2 ** 32 - 1)})

LEVELS = {IDLE: (0, 0), ROM: (0, 0), WAITING: (0, 8), EXTERNAL: (1, FIFO_BYTES)}


def numbers(fields):
    """The 69 numbers of a state."""
    assert all(FORMAT[name][0] <= fields[name] <= FORMAT[name][1] for name in FIELDS), fields
    assert fields['device'] == TMS5220C or fields['v'] == fields['rr'] == 0, fields
    return [fields[name] for name in FIELDS]


def powered_up(**changes):
    """The chip as powered up with document 01's order, but for these fields."""
    return {**dict.fromkeys(FIELDS, 0), 'noise': 8191, 'order': MOST_FIRST, **changes}


def held(level, first=1):
    """A FIFO that holds so many bytes, each another one."""
    return {'level': level, **{FIFO[i]: (first + 37 * i) % 255 + 1 for i in range(min(level, FIFO_BYTES))}}


def sounding(**changes):
    """A sound in the middle of a frame, each field with a number of its own."""
    fields = {'sounding': 1, 'sample': 7, 'interval': 3, 'noise': 2730, 'place': 9}
    fields.update({name: 10 * i + 31 for i, name in enumerate(CURRENT)})
    fields.update({name: 17 * i + 40 for i, name in enumerate(TARGET)})
    fields.update({name: 100 - 23 * i for i, name in enumerate(MEMORY)})
    return {**fields, **changes}


def in_mode(mode, **changes):
    """A valid state in a mode, sounding."""
    fifo = {WAITING: held(4), EXTERNAL: held(11)}.get(mode, {})
    return powered_up(mode=mode, **{**fifo, **sounding(), **changes})


# ---- on and outside the edges

def range_edges():
    """The low ends of all ranges in one state, and the high ends; then one outside each end where an S record can say so."""
    for end in (0, 1):
        yield in_mode(ROM, **{name: ends[end] for name, ends in RANGES.items()})
    for name, (low, high) in RANGES.items():
        for value in (low - 1, high + 1):
            if FORMAT[name][0] <= value <= FORMAT[name][1]:
                yield in_mode(ROM, **{name: value})
    # the ends of the format, which the chip's types must hold
    yield in_mode(IDLE, **{name: FORMAT[name][0] for name in RANGES})
    yield in_mode(IDLE, **{name: FORMAT[name][1] for name in RANGES})


def level_edges():
    """FIFO levels in each mode: 0 in idle and ROM speech, 0..8 in waiting, 1..16 in external speech."""
    for mode in (IDLE, ROM, WAITING, EXTERNAL):
        for level in (0, 1, 8, 9, 16, 17, 255):
            yield in_mode(mode, **{**dict.fromkeys(FIFO, 0), **held(level)})


def used_edges():
    """Used bits: 0..7 in external speech, else 0."""
    for mode in (IDLE, ROM, WAITING, EXTERNAL):
        for used in (1, 7, 8, 255):
            yield in_mode(mode, used=used)


def unheld_edges():
    """A byte that is not 0 right behind the held ones, and at the FIFO's end."""
    for level in range(1, FIFO_BYTES):
        yield in_mode(EXTERNAL, **{**dict.fromkeys(FIFO, 0), **held(level), FIFO[level]: 1})
    for mode in (IDLE, ROM, WAITING):
        yield in_mode(mode, **{**dict.fromkeys(FIFO, 0), 'level': 0, FIFO[0]: 1})
    for mode, level in ((IDLE, 0), (ROM, 0), (WAITING, 8), (EXTERNAL, 8)):
        yield in_mode(mode, **{**dict.fromkeys(FIFO, 0), **held(level), FIFO[15]: 128})


def silent_edges():
    """Not sounding: at rest but for one field; and a speaking mode. Sounding at rest is valid in every mode."""
    for name in SOUND:
        yield powered_up(**{name: 8190 if name == 'noise' else 1})
    for mode in (IDLE, ROM, WAITING, EXTERNAL):
        fifo = held(1) if mode == EXTERNAL else {}
        yield powered_up(mode=mode, **fifo)
        yield powered_up(mode=mode, sounding=1, **fifo)


def data_edges():
    """Data byte and pending in each mode, with and without the interrupt."""
    for mode in (IDLE, ROM, WAITING, EXTERNAL):
        for pending, data in ((0, 1), (0, 255), (1, 0), (1, 255)):
            yield in_mode(mode, pending=pending, data=data, interrupt=data & 1)


EDGES = [list(edges()) for edges in (range_edges, level_edges, used_edges, unheld_edges, silent_edges, data_edges)]


def rate_edges():
    """v and rr of the TMS5220C: each pair inside, each one outside by one and far, and both. With v = 1 rr is checked too."""
    for v, rr in ((0, 0), (0, 3), (1, 0), (1, 3), (2, 0), (0, 4), (1, 4), (2, 4), (255, 3), (0, 255), (1, 255)):
        yield in_mode(ROM, device=TMS5220C, v=v, rr=rr)


def hold_edges():
    """A chip that does not sound and holds, which is not at rest, in each mode that does not speak; a sounding one may hold in
    every mode, in the middle of a frame and before its first."""
    for mode in (IDLE, WAITING):
        for device in (TMS5220, TMS5220C):
            yield powered_up(mode=mode, device=device, hold=1)
    for mode in (IDLE, ROM, WAITING, EXTERNAL):
        fifo = held(1) if mode == EXTERNAL else {}
        yield in_mode(mode, device=mode % 2, hold=1)
        yield powered_up(mode=mode, device=1 - mode % 2, sounding=1, hold=1, **fifo)


def order_edges():
    """Least significant first, which is valid in every mode and on both devices; beside a field that is out of its range the
    state is as bad as with the other order."""
    for mode in (IDLE, ROM, WAITING, EXTERNAL):
        yield in_mode(mode, order=LEAST_FIRST, device=mode % 2)
    yield powered_up(order=LEAST_FIRST, sample=1)
    yield in_mode(IDLE, order=LEAST_FIRST, data=1)
    yield in_mode(ROM, order=LEAST_FIRST, device=TMS5220C, rr=4)
    yield in_mode(WAITING, order=LEAST_FIRST, used=1)
    yield in_mode(EXTERNAL, order=LEAST_FIRST, device=TMS5220C, used=8)


def busy_edges():
    """Busy samples, 0..2 in idle and 0 in the other modes, on both devices; in idle and in waiting by turns on a chip that sounds
    and on one that does not. The states of the other edges have 0."""
    for mode in (IDLE, ROM, WAITING, EXTERNAL):
        for at, busy in enumerate((1, 2, 3, 255)):
            fields = {'mode': mode, 'device': (mode + at) % 2, 'busy': busy}
            yield powered_up(**fields) if mode in (IDLE, WAITING) and at % 2 == 0 else in_mode(**fields)


# ---- random states

def any_sound(pick):
    fields = {name: pick.edge(*RANGES[name]) for name in SOUND}
    # small currents too, else the filter is always at its bounds
    if pick.chance(50):
        fields.update({name: pick.between(-200, 200) for name in CURRENT[2:] + MEMORY})
    # often right before a frame boundary, where most happens
    if pick.chance(40):
        fields.update(pick.one_of([{'sample': 0, 'interval': 0}, {'sample': 24, 'interval': 7}]))
    return {'sounding': 1, **fields}


def any_valid(pick, positions=(0, LAST_POSITION)):
    """A valid state, most often one that no list of calls leads to."""
    mode = pick.below(4)
    level = pick.edge(*LEVELS[mode])
    fields = powered_up(mode=mode, position=pick.edge(*positions), nibble=pick.below(5), interrupt=pick.below(2), level=level)
    fields.update({FIFO[i]: pick.edge(0, 255) for i in range(level)})
    if mode == EXTERNAL:
        fields['used'] = pick.edge(0, 7)
    if mode == IDLE and pick.chance(40):
        fields.update({'pending': 1, 'data': pick.below(256)})
    if mode in (ROM, EXTERNAL) or pick.chance(60):
        fields.update(any_sound(pick))
    return fields


def any_broken(pick):
    """A valid state with one field replaced by a number that the format allows, most often just outside its range."""
    fields = any_valid(pick)
    name = pick.one_of(OF_01)
    low, high = RANGES.get(name, FORMAT[name])
    value = pick.one_of([low - 1, high + 1, FORMAT[name][0], FORMAT[name][1], pick.between(*FORMAT[name])])
    fields[name] = min(max(value, FORMAT[name][0]), FORMAT[name][1])
    return fields


def any_rates(pick):
    """The device of a TMS5220C with any rate."""
    return {'device': TMS5220C, 'v': pick.below(2), 'rr': pick.below(4)}


def any_broken_rates(pick):
    """The same with v, rr or both out of range."""
    v = pick.one_of([0, 1, 2, 255, pick.between(2, 255)])
    rr = pick.one_of([0, 3, 4, 255, pick.between(4, 255)])
    return {'device': TMS5220C, 'v': v, 'rr': rr}


def any_busy(pick, mode):
    """Busy samples for a state in this mode, most often valid ones."""
    if pick.chance(20):
        return pick.one_of([1, 2, 3, 255, pick.below(256)])
    return pick.between(1, 2) if mode == IDLE else 0


def any_held_sound(pick):
    """A sound whose frame holds or not, often between silence and speech, noise and pulses, and before a frame's first sample
    or at the ends of an interval."""
    fields = {**any_sound(pick), 'hold': pick.below(2)}
    for name in CURRENT[:2] + TARGET[:2]:
        if pick.chance(40):
            fields[name] = 0
    if pick.chance(70):
        fields.update({'sample': pick.one_of([0, 0, 24]), 'interval': pick.one_of([0, 0, 7, pick.below(8)])})
    return fields
