#!/usr/bin/env python3
"""generate.py SEED CALLS [--quota]: prints a script of random calls for replay.

Most calls nest as they should; some do not. The generator follows the length of the used bytes and what is open, so that
each script stays where a builder with debug assertions and this one are meant to answer alike: it makes no call on a
finished builder but those that look at it, ends only what is open, names only slots and offsets that stand, writes UTF-8
as text and one pattern of NaN, finishes after something of alignment 4, resets no open table, and passes none of the
limits of 256. With --quota each doubling store becomes a quota over one of the two stores, with the same limit."""
import random
import sys

SIZES = dict(u8=(1, 1), u16=(2, 2), u32=(4, 4), u64=(8, 8), i8=(1, 1), i16=(2, 2), i32=(4, 4), i64=(8, 8),
             f32=(4, 4), f64=(8, 8), offset=(4, 4), anchor=(4, 2), kern=(6, 2))
F32 = '00000000 80000000 3f800000 bf800000 7f800000 ff800000 7f7fffff 00000001 807fffff 7fc00000'.split()
F64 = ('0000000000000000 8000000000000000 3ff0000000000000 7ff0000000000000 fff0000000000000 7fefffffffffffff '
       '0000000000000001 800fffffffffffff 7ff8000000000000').split()
TEXTS = ['', 'a', 'ab', 'abc', 'abcd', 'é', '€', '\U0010ffff', 'a\0b', '\0', 'glyph', 'font', '\u07ff\u0800', '\ud7ff\ue000']
LIMITS = [0, 1, 2, 3, 4, 5, 7, 8, 12, 15, 16, 20, 24, 31, 32, 33, 40, 63, 64, 65, 100, 128, 200, 255, 256, 300, 500, 512, 1000,
          1024, 2000, 4096, 5000]
LARGE = [16384, 65536, 70000, 140000, 140000, 300000]


def pad(n, alignment):
    return -n % alignment


class Model:
    """How many bytes are used, what is open, and what was written."""

    def __init__(self, limit):
        self.limit = limit
        self.forced = False
        self.clear()

    def clear(self):
        self.used, self.met, self.finished, self.nest = 0, 0, False, None
        self.objects, self.tables, self.vtables, self.strings = [], [], {}, {}

    def take(self, need, alignment):
        if need > self.limit:
            return False
        self.used, self.met = need, max(self.met, alignment)
        return True

    def push(self, kind):
        size, alignment = SIZES[kind]
        return self.take(self.used + pad(self.used + size, alignment) + size, alignment)

    def vector(self, kind, count):
        size, alignment = SIZES[kind]
        alignment = max(alignment, 4)
        if self.take(self.used + pad(self.used + size * count, alignment) + size * count + 4, alignment):
            self.objects.append(self.used)

    def start_vector(self, kind, count):
        size, alignment = SIZES[kind]
        alignment = max(alignment, 4)
        if self.take(self.used + pad(self.used + size * count, alignment), alignment):
            self.nest = ('vector', kind, count, self.used)

    def string(self, text):
        done = self.take(self.used + pad(self.used + len(text) + 1, 4) + len(text) + 5, 4)
        if done:
            self.objects.append(self.used)
        return done

    def end_table(self):
        _, start, slots = self.nest
        table = self.used + pad(self.used, 4) + 4
        length = max(slots, default=2) + 2
        if table + length > self.limit or table - start >= 65536:
            return
        vtable = (length, table - start, tuple(sorted((s, table - o) for s, o in slots.items())))
        self.take(table if vtable in self.vtables else table + length, 4)
        self.vtables.setdefault(vtable, self.used)
        self.nest = None
        self.tables.append((table, sorted(slots)))
        self.objects.append(table)

    def finish(self, identifier, prefixed):
        extra = 4 + 4 * prefixed + 4 * (identifier is not None)
        if identifier is not None and len(identifier) != 4:
            return
        if self.take(self.used + pad(self.used + extra, self.met) + extra, 4):
            self.finished = True


class Generator:
    def __init__(self, seed, quota):
        self.r = random.Random(seed)
        self.side = random.Random(seed)
        self.quota = quota
        self.lines = []
        self.store()

    def say(self, *words):
        self.lines.append(' '.join(str(w) for w in words))

    def chance(self, p):
        return self.r.random() < p

    def store(self):
        r = self.r
        kind = r.choices(['still', 'small', 'large'], [5, 12, 2])[0]
        if kind == 'still':
            self.say('store still')
            self.m = Model(16384)
            return
        limit = r.choice(LIMITS + [r.randrange(3000)]) if kind == 'small' else r.choice(LARGE)
        self.m = Model(limit)
        if not self.quota:
            self.say('store doubling', limit)
        elif limit <= 16384 and self.side.getrandbits(1):
            self.say('store quota', limit, 'still')
        elif self.side.getrandbits(1):
            self.say('store quota', limit, 'doubling', limit + limit // 2 + 1)
        else:
            self.say('store quota', limit + limit // 2 + 1, 'doubling', limit)

    def integer(self, bits, signed):
        r, low, high = self.r, -(1 << bits - 1) if signed else 0, (1 << bits - signed) - 1
        if self.chance(0.5):
            return r.choice([low, low + 1, 0, 1, 2, high - 1, high, min(high, 255), min(high, 256)])
        return r.randint(low, high)

    def value(self, kind):
        r = self.r
        if kind == 'offset':
            return r.choice(self.m.objects) if self.m.objects and self.chance(0.7) else r.randint(1, self.m.used)
        if kind == 'anchor':
            return f'{self.integer(16, True)},{self.integer(16, True)}'
        if kind == 'kern':
            return f'{self.integer(16, False)},{self.integer(16, False)},{self.integer(16, True)}'
        if kind[0] == 'f':
            wide = kind == 'f64'
            if self.chance(0.6):
                return r.choice(F64 if wide else F32)
            return f'{r.getrandbits(62):016x}' if wide else f'{r.getrandbits(30):08x}'
        return self.integer(int(kind[1:]), kind[0] == 'i')

    def kind(self):
        kind = self.r.choice(list(SIZES))
        return 'u32' if kind == 'offset' and self.m.used == 0 else kind

    def text(self):
        r = self.r
        if self.chance(0.6):
            return r.choice(TEXTS).encode()
        text = ''.join(r.choice('abcdefgh\u00e9\u20ac') for _ in range(r.choice([1, 2, 3, 5, 8, 13, 40])))
        return text.encode()

    def hex(self, data):
        return data.hex() or '-'

    # ---- the calls

    def push(self):
        kind = self.kind()
        self.say('push', kind, self.value(kind))
        if self.m.push(kind):
            self.m.objects.append(self.m.used)

    def push_slot(self):
        r, m = self.r, self.m
        kind = self.kind()
        slot = 4 + 2 * (r.randrange(12) if self.chance(0.95) else r.choice([r.randrange(400), r.randrange(32765), 32764]))
        value = self.value(kind)
        in_table = m.nest is not None
        if in_table and slot not in m.nest[2] and len(m.nest[2]) >= 256:
            return
        if self.chance(0.4):
            self.say('push_slot_always', slot, kind, value)
            written = True
        else:
            default = value if self.chance(0.3) else self.value(kind)
            self.say('push_slot', slot, kind, value, default)
            zeros = ('0' * len(str(value)), '8' + '0' * (len(str(value)) - 1))
            same = value == default
            if kind[0] == 'f':
                nan = str(value).startswith(('7fc00000', '7ff8'))
                same = (same or value in zeros and default in zeros) and not nan
            written = m.forced or not same
        if in_table and written and m.push(kind):
            m.nest[2][slot] = m.used

    def create_vector(self):
        r = self.r
        kind = self.kind()
        count = r.choice([0, 1, 2, 3, 4, 5, 9]) if self.chance(0.97) else r.choice([50, 200])
        values = [self.value(kind) for _ in range(count)]
        if self.m.limit >= 65536 and self.chance(0.2):
            kind, count = 'u64', r.choice([8189, 8190, 8191, 5000, 1000])
            values = [r.randrange(10) for _ in range(count)]
        self.say('create_vector', kind, *values)
        self.m.vector(kind, count)

    def create_string(self):
        m = self.m
        name = self.r.choice(['create_byte_string', 'create_string', 'create_shared_string', 'create_shared_string'])
        text = self.text()
        if name == 'create_byte_string' and self.chance(0.5):
            text = bytes(self.r.getrandbits(8) for _ in range(self.r.randrange(9)))
        if name == 'create_shared_string' and len(m.strings) >= 256:
            return
        self.say(name, self.hex(text))
        if m.nest is not None:
            return
        if name != 'create_shared_string':
            m.string(text)
        elif text not in m.strings and m.string(text):
            m.strings[text] = m.used

    def start_table(self):
        self.say('start_table')
        if self.m.nest is None:
            self.m.nest = ('table', self.m.used, {})

    def start_vector(self):
        kind = self.kind()
        count = self.r.choice([0, 1, 2, 3, 4, 7])
        self.say('start_vector', kind, count)
        if self.m.nest is None:
            self.m.start_vector(kind, count)

    def end_table(self):
        m = self.m
        if m.nest is None:
            self.say('end_table', self.r.randint(0, m.used))
        elif len(m.vtables) < 256:
            self.say('end_table', m.nest[1])
            m.end_table()
            if m.nest and self.chance(0.6):
                self.store()

    def end_vector(self):
        m = self.m
        if m.nest is None:
            self.say('end_vector', self.kind(), self.r.randrange(3))
            return
        _, kind, count, start = m.nest
        done = m.used - start
        if done == count * SIZES[kind][0]:
            self.say('end_vector', kind, count)
            if m.take(m.used + 4, 4):
                m.nest = None
                m.objects.append(m.used)
            elif self.chance(0.5):
                self.reset()
        elif done > count * SIZES[kind][0]:
            self.reset()

    def fill_vector(self):
        m = self.m
        _, kind, count, start = m.nest
        if self.chance(0.02):
            self.push()
        elif m.used - start < count * SIZES[kind][0]:
            self.say('push', kind, self.value(kind))
            if not m.push(kind) and self.chance(0.7):
                self.reset()
        else:
            self.end_vector()

    def finish(self):
        m = self.m
        if m.nest is None and (m.met < 4 or not m.used):
            return
        root = self.r.choice(m.objects) if m.objects else max(m.used, 1)
        identifier = self.r.choice([None, None, b'FONT', b'abcd', '\u20aca'.encode(), b'abc', b'abcde', b'a'])
        prefixed = self.chance(0.4)
        self.say('finish_size_prefixed' if prefixed else 'finish', root, '-' if identifier is None else identifier.hex())
        if m.nest is None:
            m.finish(identifier, prefixed)

    def required(self):
        if self.m.tables:
            table, slots = self.r.choice(self.m.tables)
            slot = self.r.choice(slots) if slots and self.chance(0.6) else 4 + 2 * self.r.randrange(20)
            self.say('required', table, slot)

    def reset(self):
        if not (self.m.nest and self.m.nest[0] == 'table'):
            self.say('reset')
            self.m.clear()

    def force_defaults(self):
        self.m.forced = self.chance(0.5)
        self.say('force_defaults', int(self.m.forced))

    def look(self):
        if self.chance(0.5 if self.m.used < 400 else 0.05):
            self.say('used')
        self.say(self.r.choice(['vtables', 'finished_data']))

    # ---- what comes next

    def pick(self, **weights):
        getattr(self, self.r.choices(list(weights), list(weights.values()))[0])()

    def step(self):
        m = self.m
        if self.chance(0.003):
            return self.store()
        if m.finished:
            return self.pick(look=3, required=1, force_defaults=0.3, reset=2, store=0.4)
        if m.nest is None:
            return self.pick(start_table=5, start_vector=2, create_vector=3, create_string=6, push=3, finish=0.7, required=1,
                             look=1.5, reset=0.1, force_defaults=0.4, end_table=0.15, end_vector=0.15, push_slot=0.3)
        if m.nest[0] == 'table':
            return self.pick(push_slot=12, push=0.7, create_vector=0.5 if m.limit < 65536 else 2, end_table=3, start_table=0.2, start_vector=0.2,
                             create_string=0.3, finish=0.2, required=0.5, look=0.7, force_defaults=0.3, store=0.02)
        return self.pick(fill_vector=9, start_table=0.2, start_vector=0.2, create_string=0.2, create_vector=0.03, finish=0.2,
                         look=0.5, reset=0.1)


def main():
    words = [w for w in sys.argv[1:] if w != '--quota']
    g = Generator(int(words[0]), '--quota' in sys.argv)
    while len(g.lines) < int(words[1]):
        g.step()
    print('\n'.join(g.lines[:int(words[1])]))


main()
