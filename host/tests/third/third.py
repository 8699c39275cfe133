#!/usr/bin/env python3
"""A third program for SNOVA (q = 16), beside the proved library and the host's model.

It shares nothing with either. Hashes come from hashlib, AES from the command openssl. It works over whole matrices of n l rows: the key and
F are read off T^t P T, and the linear part of signing off the central map's polar form, not off Algorithms 9, 10 and 13.

    third.py fingerprints > fingerprints.txt     streams, key and signature of some sets, from fixed seeds
    third.py files > files.txt                   the first entry of each set's response file
    third.py answers                             a line for each line of standard input: hashes, ciphers, generators, keys and signatures
"""
import hashlib
import subprocess
import sys

ROUND_2 = [(37, 17, 2), (25, 8, 3), (24, 5, 4), (56, 25, 2), (49, 11, 3), (37, 8, 4), (75, 33, 2), (66, 15, 3), (60, 10, 4)]


# GF(16), and rows of elements as bytes: a multiple of a row is a translation of its bytes, a sum one exclusive or.
def product(a, b):
    value = 0
    for bit in range(4):
        if b >> bit & 1:
            value ^= a << bit
    for bit in (6, 5, 4):
        if value >> bit & 1:
            value ^= 0b10011 << (bit - 4)
    return value


PRODUCTS = [bytes(product(a, b % 16) for b in range(256)) for a in range(16)]
INVERSES = [next((b for b in range(16) if product(a, b) == 1), 0) for a in range(16)]


def combination(coefficients, rows):
    """The sum of coefficient times row."""
    total = 0
    for a, row in zip(coefficients, rows):
        if a:
            total ^= int.from_bytes(row.translate(PRODUCTS[a]), 'little')
    return total.to_bytes(len(rows[0]), 'little')


def times(m, n):
    return [combination(row, n) for row in m]


def plus(m, n):
    return [bytes(a ^ b for a, b in zip(r, s)) for r, s in zip(m, n)]


def transposed(m):
    return [bytes(column) for column in zip(*m)]


def scaled(a, m):
    return [row.translate(PRODUCTS[a]) for row in m]


def identity(size):
    return [bytes(int(r == c) for c in range(size)) for r in range(size)]


def determinant(m):
    """By elimination; a swap of rows changes no sign here."""
    rows, value = [bytearray(row) for row in m], 1
    for c in range(len(rows)):
        pivot = next((r for r in range(c, len(rows)) if rows[r][c]), None)
        if pivot is None:
            return 0
        rows[c], rows[pivot] = rows[pivot], rows[c]
        value = product(value, rows[c][c])
        for r in range(c + 1, len(rows)):
            a = product(rows[r][c], INVERSES[rows[c][c]])
            rows[r] = bytearray(x ^ y for x, y in zip(rows[r], rows[c].translate(PRODUCTS[a])))
    return value


def solution(rows):
    """The one solution of an augmented system, or None."""
    rows = list(rows)
    for c in range(len(rows)):
        pivot = next((r for r in range(c, len(rows)) if rows[r][c]), None)
        if pivot is None:
            return None
        rows[c], rows[pivot] = rows[pivot], rows[c]
        rows[c] = rows[c].translate(PRODUCTS[INVERSES[rows[c][c]]])
        for r in range(len(rows)):
            if r != c and rows[r][c]:
                rows[r] = combination([1, rows[r][c]], [rows[r], rows[c]])
    return bytes(row[-1] for row in rows)


# Bytes, elements, hashing.
def elements(data):
    return bytes(half for byte in data for half in (byte & 15, byte >> 4))


def packed(values):
    values = bytes(values) + bytes(len(values) % 2)
    return bytes(low | high << 4 for low, high in zip(values[::2], values[1::2]))


def length(count):
    return (count + 1) // 2


def shake256(data, count):
    return hashlib.shake_256(data).digest(count)


def openssl(cipher, key, data, *more):
    command = ['openssl', 'enc', '-' + cipher, '-nopad', '-K', key.hex(), *more]
    return subprocess.run(command, input=data, stdout=subprocess.PIPE, check=True).stdout


def expanded(seed, count, expansion):
    if expansion == 'aes':
        return openssl('aes-128-ctr', seed, bytes(count), '-iv', '00' * 16)
    blocks = (hashlib.shake_128(seed + b.to_bytes(8, 'little')).digest(168) for b in range(count // 168 + 1))
    return b''.join(blocks)[:count]


class Generator:
    """NIST's AES-256 generator of the response files."""

    def __init__(self, seed):
        self.key, self.v = bytes(32), 0
        self.update(seed)

    def blocks(self, count):
        counters = b''.join((self.v + 1 + b).to_bytes(16, 'big') for b in range(count))
        self.v += count
        return openssl('aes-256-ecb', self.key, counters)

    def update(self, data):
        mixed = bytes(a ^ b for a, b in zip(self.blocks(3), data))
        self.key, self.v = mixed[:32], int.from_bytes(mixed[32:], 'big')

    def bytes(self, count):
        output = self.blocks((count + 15) // 16)[:count]
        self.update(bytes(48))
        return output


class Scheme:
    def __init__(self, v, o, l, expansion):
        self.v, self.o, self.l, self.n, self.expansion = v, o, l, v + o, expansion
        self.s = [bytes(8 - r - c for c in range(l)) for r in range(l)]

    def ring_element(self, a):
        a = list(a)
        if a[-1] == 0:
            a[-1] = 16 - a[0] if a[0] else 15
        value, power = [bytes(self.l)] * self.l, identity(self.l)
        for coefficient in a:
            value = plus(value, scaled(coefficient, power))
            power = times(power, self.s)
        return value

    def invertible(self, m):
        return next(n for n in (plus(m, scaled(a, self.s)) for a in range(16)) if determinant(n))

    def blocks(self, values, count):
        """Blocks in stream order, each l rows."""
        size = self.l * self.l
        return [[values[b * size + r * self.l:b * size + (r + 1) * self.l] for r in range(self.l)] for b in range(count)]

    def joined(self, blocks, rows, columns):
        """Blocks, row by row, as one matrix."""
        return [b''.join(blocks[j * columns + k][r] for k in range(columns)) for j in range(rows) for r in range(self.l)]

    def streams(self, seed):
        public = length(self.o * (self.v ** 2 + 2 * self.v * self.o) * self.l ** 2)
        abq = length(self.o * (self.l ** 2 + self.l) * (2 * self.l ** 2 + 2 * self.l))
        if self.l <= 3:
            return expanded(seed, public, self.expansion), shake256(b'SNOVA_ABQ', abq)
        both = expanded(seed, public + abq, self.expansion)
        return both[:public], both[public:]

    def public_matrices(self, public):
        """P of every i as one matrix of n l rows, with zero for its last corner."""
        v, o, l = self.v, self.o, self.l
        values, at, corners = elements(public), 0, []
        for rows, columns in ((v, v), (v, o), (o, v)):
            size = rows * columns
            corners.append([])
            for _ in range(o):
                part = self.blocks(values[at:at + size * l * l], size)
                corners[-1].append(self.joined(part, rows, columns))
                at += size * l * l
        zero = [bytes(o * l)] * (o * l)
        return [[a + b for a, b in zip(p11, p12)] + [a + b for a, b in zip(p21, zero)] for p11, p12, p21 in zip(*corners)]

    def terms(self, abq):
        """(A, B, Q1, Q2) of every i and alpha."""
        l, count = self.l, self.o * (self.l ** 2 + self.l)
        values = elements(abq)
        a = [self.invertible(m) for m in self.blocks(values, count)]
        b = [self.invertible(m) for m in self.blocks(values[count * l * l:], count)]
        rest = values[2 * count * l * l:]
        q = [self.ring_element(rest[k * l:(k + 1) * l]) for k in range(2 * count)]
        return list(zip(a, b, q[:count], q[count:]))

    def change(self, private_seed):
        """The whole matrix T."""
        v, o, l = self.v, self.o, self.l
        values = elements(shake256(private_seed, length(v * o * l)))
        entries = [self.ring_element(values[e * l:(e + 1) * l]) for e in range(v * o)]
        t12 = self.joined(entries, v, o)
        one = identity(self.n * l)
        return [one[r][:v * l] + t12[r] for r in range(v * l)] + one[v * l:]

    def key(self, p, t):
        """P22 of every i: what makes the last corner of T^t P T zero."""
        cut, values = self.v * self.l, []
        for matrix in p:
            corner = [row[cut:] for row in times(transposed(t), times(matrix, t))[cut:]]
            for j in range(self.o):
                for k in range(self.o):
                    for r in range(self.l):
                        values.append(corner[j * self.l + r][k * self.l:(k + 1) * self.l])
        return packed(b''.join(values))

    def signature(self, p, terms, t, vinegar, target):
        """The signature's elements, or None for redo. T is its own inverse, so F with a zero corner is T^t P T."""
        v, o, l, n = self.v, self.o, self.l, self.n
        cut, count, unknowns = v * l, l * l + l, o * l * l
        f = [times(transposed(t), times(matrix, t)) for matrix in p]
        x = [row for block in self.blocks(vinegar, v) for row in block]
        system = [bytearray(unknowns + 1) for _ in range(unknowns)]
        for i in range(o):
            for alpha in range(count):
                a, b, q1, q2 = terms[i * count + alpha]
                matrix = f[(i + alpha) % o]
                # Q1 stands before every block of F, Q2 behind it: on X they become Q1 X and Q2 X, block by block.
                left = [row for j in range(v) for row in times(transposed(q1), x[j * l:(j + 1) * l])]
                right = [row for k in range(v) for row in times(q2, x[k * l:(k + 1) * l])]
                row_sums = times(a, times(transposed(left), matrix[:cut]))
                column_sums = times([row[:cut] for row in matrix], times(right, b))
                value = times([row[:cut] for row in row_sums], times(right, b))
                for r in range(l):
                    for c in range(l):
                        system[i * l * l + r * l + c][-1] ^= value[r][c]
                for k in range(o):
                    head = times([row[cut + k * l:cut + (k + 1) * l] for row in row_sums], q2)
                    tail = times(q1, column_sums[cut + k * l:cut + (k + 1) * l])
                    for y in range(l):
                        for z in range(l):
                            # The oil matrix with a one at (y, z) alone: head E b + a E^t tail.
                            column = k * l * l + y * l + z
                            for r in range(l):
                                for c in range(l):
                                    term = product(head[r][y], b[z][c]) ^ product(a[r][z], tail[y][c])
                                    system[i * l * l + r * l + c][column] ^= term
        for row, value in zip(system, target):
            row[-1] ^= value
        oil = solution([bytes(row) for row in system])
        if oil is None:
            return None
        x += [row for block in self.blocks(oil, o) for row in block]
        return b''.join(times(t, x))

    def sign(self, seeds, document, salt):
        public_seed, private_seed = seeds[:16], seeds[16:]
        public, abq = self.streams(public_seed)
        p, t = self.public_matrices(public), self.change(private_seed)
        digest = shake256(document, 64)
        target = elements(shake256(public_seed + digest + salt, length(self.o * self.l ** 2)))
        terms = self.terms(abq)
        for number in range(1, 256):
            vinegar = shake256(private_seed + digest + salt + bytes([number]), length(self.v * self.l ** 2))
            found = self.signature(p, terms, t, elements(vinegar), target)
            if found is not None:
                return public, abq, self.key(p, t), packed(found) + salt
        raise SystemExit('redo for all 255 tries')


def fingerprint(data):
    return shake256(data, 16).hex().upper()


def fingerprints():
    print('# Fingerprints (16 bytes of SHAKE256) of public stream, ABQ stream, key and signature, for the public seed\n'
          '# 00 01 .. 0F, the private seed 20 21 .. 3F, the document "page 01" and the salt 64 65 .. 73.\n'
          '# Written by third/third.py.')
    seeds = bytes(range(16)) + bytes(range(32, 64))
    for v, o, l in [(5, 3, 2), (4, 3, 3), (4, 2, 4), (24, 5, 4), (25, 8, 3), (37, 17, 2)]:
        for expansion in ('aes', 'shake'):
            made = Scheme(v, o, l, expansion).sign(seeds, b'page 01', bytes(range(100, 116)))
            print(f'{v},{o},{l}', expansion, *map(fingerprint, made))


def first_entry(v, o, l, expansion):
    requests = Generator(bytes(range(48)))
    seed = requests.bytes(48)
    message = requests.bytes(33)
    own = Generator(seed)
    seeds, salt = own.bytes(48), own.bytes(16)
    _, _, key, signature = Scheme(v, o, l, expansion).sign(seeds, message, salt)
    name = f'SNOVA_{v}_{o}_{l}' + ('_SSK' if expansion == 'aes' else '_SHAKE_SSK')
    sm = signature + message
    fields = [('count', 0), ('seed', seed), ('mlen', 33), ('msg', message), ('pk', seeds[:16] + key), ('sk', seeds), ('smlen', len(sm)), ('sm', sm)]
    lines = [f'{name} = {value if isinstance(value, int) else value.hex().upper()}\n' for name, value in fields]
    return f'# {name}\n\n' + ''.join(lines) + '\n'


def files():
    print('# Fingerprints (16 bytes of SHAKE256) of the response file with the first entry alone. Written by third/third.py.')
    for v, o, l in ROUND_2:
        for expansion in ('aes', 'shake'):
            print(f'{v},{o},{l}', expansion, fingerprint(first_entry(v, o, l, expansion).encode()), flush=True)


def given(word):
    return b'' if word == '-' else bytes.fromhex(word)


def answer(request):
    """One request: bytes are hexadecimal, '-' where there are none."""
    what, first, *words = request.split(' ')
    if what == 'sign':
        seeds, document, salt = map(given, words[1:])
        v, o, l = map(int, first.split(','))
        return b''.join(Scheme(v, o, l, words[0]).sign(seeds, document, salt))
    data = given(first)
    if what == 'generator':
        generator = Generator(data)
        return b''.join(generator.bytes(int(count)) for count in words)
    if what == 'aes256':
        return openssl('aes-256-ecb', data, given(words[0]))
    count = int(words[0])
    return {
        'shake128': lambda: hashlib.shake_128(data).digest(count),
        'shake256': lambda: hashlib.shake_256(data).digest(count),
        'snova_shake': lambda: expanded(data, count, 'shake'),
        'aes128-ctr': lambda: expanded(data, count, 'aes'),
    }[what]()


def answers():
    for line in sys.stdin:
        print(answer(line.rstrip('\n')).hex().upper())


if __name__ == '__main__':
    {'fingerprints': fingerprints, 'files': files, 'answers': answers}[sys.argv[1]]()
