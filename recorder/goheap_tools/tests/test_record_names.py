"""Names of stacks by a program's own table, held against what the runtime itself and the linker's tools say."""

import os
import re
import struct
import subprocess
import unittest

from goheap_tools.inside.elf import Damaged, Elf
from goheap_tools.inside.symbols import Symbols
from goheap_tools.tests.go_tools import GoTest, built, environment, toolchains, workplace

ANYWHERE = ("-buildmode=pie",)
FLAGS = ((), ("-ldflags=-s -w",), ("-gcflags=-N -l",), ANYWHERE)


def stacks_of(said):
    """The stacks that the program printed: the name of each, its addresses, and its frames as the runtime names them."""
    stacks = []
    for line in said.splitlines():
        word, _, rest = line.partition(" ")
        if word == "stack":
            stacks.append((rest, [], []))
        elif word == "address":
            stacks[-1][1].append(int(rest, 16))
        elif word == "frame":
            stacks[-1][2].append(rest)
        elif word == "text":
            base = int(rest, 16)
    return base, stacks


class Names(GoTest):
    def test_stacks_are_named_as_the_runtime_names_them(self):
        for version in toolchains():
            for flags in FLAGS:
                if flags == ANYWHERE and version != max(toolchains()):
                    continue  # it builds all of the standard library once more
                path = built(version, "names", *flags)
                base, stacks = stacks_of(subprocess.run([path], capture_output=True, text=True, check=True, timeout=60).stdout)
                symbols = Symbols(Elf(path))
                moved = base - symbols.entry_of("main.main")
                self.assertEqual(moved != 0, flags == ANYWHERE)
                self.assertEqual(len(stacks), 17)
                for name, addresses, frames in stacks:
                    found = [str(frame) for frame in symbols.stack(address - moved for address in addresses)]
                    self.assertEqual(found, frames, (version, flags, name))

    def test_inlined_calls_are_there(self):
        path = built("1.21" if "1.21" in toolchains() else "1.19", "names")
        _, stacks = stacks_of(subprocess.run([path], capture_output=True, text=True, check=True, timeout=60).stdout)
        name, addresses, _ = next(stack for stack in stacks if stack[0] == "one")
        functions = [frame.function for frame in Symbols(Elf(path)).stack(addresses)]
        self.assertEqual(functions, ["main.inlinedDeeper", "main.inlined", "main.twice", "main.main", "runtime.main", "runtime.goexit"])
        self.assertEqual(len(addresses), 4)

    def test_functions_begin_where_the_linker_says(self):
        for version, go in toolchains().items():
            path = built(version, "names")
            symbols = Symbols(Elf(path))
            listed = subprocess.run([go, "tool", "nm", path], capture_output=True, text=True, check=True, env=environment(), timeout=60).stdout
            found = [(int(address, 16), name) for address, name in re.findall(r"^ *([0-9a-f]+) [Tt] (\S+)$", listed, re.M) if re.match(r"(main|runtime|fmt|strings)\.[\w.()*]+$", name)]
            self.assertGreater(len(found), 1000)
            marks = ("runtime.text", "runtime.etext", "runtime.rodata")
            for address, name in found:
                if name not in marks:
                    function, place = symbols.function_at(address)
                    self.assertEqual((function.name, place), (name.removesuffix(".abi0"), 0))

    def test_lines_of_each_instruction(self):
        for version, go in toolchains().items():
            path = built(version, "names")
            symbols = Symbols(Elf(path))
            listed = subprocess.run([go, "tool", "objdump", "-s", "^main\\.", path], capture_output=True, text=True, check=True, env=environment(), timeout=60).stdout
            lines = re.findall(r"^  (\w+\.\w+):(\d+)\s+(0x[0-9a-f]+)\s", listed, re.M)
            self.assertGreater(len(lines), 800)
            for file, line, address in lines:
                frame, _ = symbols.frames(int(address, 16))[0]
                self.assertEqual((os.path.basename(frame.file), frame.line), (file, int(line)), address)

    def test_what_is_of_no_function(self):
        symbols = Symbols(Elf(built(next(iter(toolchains())), "names")))
        for address in (0, 1, symbols.text - 1, symbols.text + symbols.entries[-1], 1 << 63):
            self.assertEqual(symbols.frames(address), ())


class Refused(GoTest):
    """A damaged file is refused by an offset, and never believed."""

    def path_of(self, data):
        path = os.path.join(workplace(), "damaged")
        with open(path, "wb") as file:
            file.write(data)
        return path

    def refusal(self, data):
        with self.assertRaises(Damaged) as refused:
            symbols = Symbols(Elf(self.path_of(data)))
            for entry in symbols.entries:
                symbols.frames(symbols.text + entry)
        return str(refused.exception)

    def test_no_program(self):
        for data in (b"", b"goheap 1\n", b"\x7fELF\x01\x01" + bytes(100)):
            self.assertIn("no 64-bit little-endian ELF program", self.refusal(data))

    def test_no_go_program(self):
        with open("/bin/true", "rb") as file:
            self.assertIn("was it built by Go", self.refusal(file.read()))

    def test_a_cut_program(self):
        with open(built(next(iter(toolchains())), "names"), "rb") as file:
            whole = file.read()
        for size in (10, 63, 100, 5000, len(whole) // 2):
            self.assertRegex(self.refusal(whole[:size]), r"offset \d+|no 64-bit|was it built by Go")

    def test_numbers_that_lie(self):
        path = built(next(iter(toolchains())), "names")
        with open(path, "rb") as file:
            whole = bytearray(file.read())
        base = Symbols(Elf(path)).base
        for field in (8, 32, 40, 48, 56, 64):
            for value in (1 << 63, 1 << 40, len(whole)):
                changed = bytearray(whole)
                struct.pack_into("<Q", changed, base + field, value)
                self.assertRegex(self.refusal(changed), r"offset \d+", (field, value))


if __name__ == "__main__":
    unittest.main()
