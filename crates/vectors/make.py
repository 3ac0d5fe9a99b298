#!/usr/bin/env python3
"""make.py FOLDER: writes data/ from the files of Debian's python3-cryptography-vectors, below
FOLDER = /usr/lib/python3/dist-packages/cryptography_vectors. data/README.md says what they are."""
import os
import sys

source = sys.argv[1]
here = os.path.join(os.path.dirname(os.path.abspath(__file__)), 'data')


def rows(path):
    """The values of a response file, as (name, value)."""
    for line in open(os.path.join(source, path)):
        name, is_row, value = line.partition(' = ')
        if is_row and not line.startswith('['):
            yield name, value.strip()


def field(octets, times=1):
    return f'{times:08} {len(octets):08}\n{octets.hex()}\n'


def write(name, text):
    open(os.path.join(here, name), 'w').write(text)


def messages(path):
    text, length, message = '', 0, b''
    for name, value in rows(path):
        if name == 'Len':
            length = int(value) // 8
        elif name == 'Msg':
            message = bytes.fromhex(value)[:length]
        elif name == 'MD':
            text += field(message) + field(bytes.fromhex(value))
    return text


def monte(path):
    return ''.join(field(bytes.fromhex(value)) for name, value in rows(path) if name in ('Seed', 'MD'))


def codes(path):
    cases, key, message = [], b'', b''
    for name, value in rows(path):
        if name == 'Key':
            key = bytes.fromhex(value)
        elif name == 'Msg':
            message = bytes.fromhex(value)
        elif name == 'MD':
            cases.append(field(key) + field(message) + field(bytes.fromhex(value)))
    # RFC 4231 4.6, which the file leaves out: only the first 128 bits are given
    truncated = field(b'\x0c', 20) + field(b'Test With Truncation') + field(bytes.fromhex('a3b6167473100ee06e0c796c2955552b'))
    return ''.join(cases[:4] + [truncated] + cases[4:])


# FIPS 180-2 B.1 to B.3
examples = (
    (b'abc', 1, 'ba7816bf8f01cfea414140de5dae2223b00361a396177a9cb410ff61f20015ad'),
    (b'abcdbcdecdefdefgefghfghighijhijkijkljklmklmnlmnomnopnopq', 1, '248d6a61d20638b8e5c026930c3e6039a33ce45964ff2167f6ecedd419db06c1'),
    (b'a', 1000000, 'cdc76e5c9914fb9281a1c7e284d73e67f1809a48a497200e046d39ccc7112cd0'),
)

write('SHA256ShortMsg', messages('hashes/SHA2/SHA256ShortMsg.rsp'))
write('SHA256LongMsg', messages('hashes/SHA2/SHA256LongMsg.rsp'))
write('SHA256Examples', ''.join(field(m, times) + field(bytes.fromhex(d)) for m, times, d in examples))
write('SHA256Monte', monte('hashes/SHA2/SHA256Monte.rsp'))
write('RFC4231', codes('HMAC/rfc-4231-sha256.txt'))
