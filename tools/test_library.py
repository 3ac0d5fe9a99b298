#!/usr/bin/env python3
"""Tests of the static library, after `tools/build exports`: its header in C and in C++, the clients in C and in Rust, and how the structs that it
shares with them lie in memory."""

import os
import re
import subprocess
import sys
import tempfile
import unittest

ROOT = os.path.dirname(os.path.dirname(os.path.abspath(__file__)))
ARCHIVE = 'target/staticlib/libexports.a'
C = ['gcc', '-Wall', '-Wextra', '-Werror', '-pedantic', '-std=c11', '-O2', '-pthread', '-Iinclude']
CPP = ['g++', '-Wall', '-Wextra', '-Werror', '-pedantic', '-std=c++11', '-Iinclude']


def run(words):
    """The standard output of a command that must end well."""
    done = subprocess.run(words, cwd=ROOT, stdout=subprocess.PIPE, stderr=subprocess.STDOUT, text=True)
    if done.returncode:
        raise AssertionError(f"{' '.join(words)}: exit status {done.returncode}\n{done.stdout}")
    return done.stdout


def read(path):
    with open(os.path.join(ROOT, path), encoding='utf-8') as file:
        return file.read()


class Library(unittest.TestCase):
    def setUp(self):
        folder = tempfile.TemporaryDirectory()
        self.addCleanup(folder.cleanup)
        self.folder = folder.name

    def built(self, compiler, source, *more):
        """A client, built and run."""
        program = os.path.join(self.folder, 'client')
        run([*compiler, source, *more, '-o', program])
        return run([program])

    def expected(self):
        """The lines of the first sign-in of events/milenage.txt and of its key."""
        run(['tools/events', 'asm', 'events/milenage.txt', '-o', self.folder])
        lines = read(os.path.join(self.folder, 'milenage.expected')).splitlines(keepends=True)
        return ''.join(lines[:4])

    def test_sign_in_in_c(self):
        self.assertEqual(self.built(C, 'clients/sign_in.c', ARCHIVE), self.expected())

    def test_sign_in_in_rust(self):
        line = ['cargo', 'run', '--quiet', '--manifest-path', 'rust/Cargo.toml', '--example', 'sign_in']
        self.assertEqual(run(line), self.expected())

    def test_the_header_in_cpp(self):
        source = os.path.join(self.folder, 'client.cc')
        with open(source, 'w', encoding='utf-8') as file:
            file.write('#include "pagerudder.h"\nstatic pr_state server;\n'
                       'int main() { return pr_open(&server, nullptr, 0, 7, 3600) == PR_NOT_OPEN ? 0 : 1; }\n')
        self.built(CPP, source, ARCHIVE)

    def test_fields(self):
        self.assertEqual(self.built(C, 'clients/fields.c', ARCHIVE), '')

    def test_structs_lie_as_proved(self):
        """Where C has a field is where crates/exports/proofs/Laid.antt proves that it is."""
        laws = re.findall(r'^pub (\w+)_laid : laid \w+\.mir \([^)]*\) ≡ (.*) ∷ \[\]$', read('crates/exports/proofs/Laid.antt'), re.M)
        proved = {name: [int(n) for n in numbers.split(' ∷ ')] for name, numbers in laws}
        seen = {}
        for line in self.built(C, 'clients/layout.c').splitlines():
            name, *numbers = line.split()
            seen[name] = [int(n) for n in numbers[:-1]]
            self.assertEqual(numbers[-1], '8', f'the alignment of {name}')
        self.assertEqual(seen.pop('pr_state'), [0, proved['state'][-1]])
        self.assertEqual({name.removeprefix('pr_'): numbers for name, numbers in seen.items()}, proved)

    def test_refusals_have_their_names(self):
        """The header and the Rust crate name each number as docs/REFUSALS.md does."""
        table = re.findall(r'^\| \[(\d+)\]\(#[^)]*\) \| ([A-Z -]+) \|', read('docs/REFUSALS.md'), re.M)
        self.assertEqual([int(number) for number, _ in table], list(range(1, 17)))
        header, crate = read('include/pagerudder.h'), read('rust/src/refusal.rs')
        for number, name in table:
            constant = 'PR_' + name.replace('-', '').replace(' ', '_')
            self.assertRegex(header, rf'\b{constant} = {number}\b')
            variant = re.search(rf'\b(\w+) => "{name}"', crate)
            self.assertIsNotNone(variant, name)
            self.assertRegex(crate, rf'\b{variant.group(1)} = {number},')


if __name__ == '__main__':
    unittest.main(argv=[sys.argv[0]])
