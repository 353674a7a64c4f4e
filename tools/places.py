#!/usr/bin/env python3
"""Counts the places that docs/DESIGN-PASS.md speaks of: `places.py [-v] [ROW..]`, at the top of the repository.

Each row is one search over crates/*/src; -v lists what it finds.
"""
import glob
import re
import sys

# row, what it counts, the pattern (over a whole file, so that it can pass line ends)
ROWS = [
    ("1a", "numbers in place of refusals or kinds", r"fn number\([^\n]*-> u(?:8|32)|Refused\(u8\)"),
    ("1b", "a value with a flag beside it", r"-> \(\w+, bool\)|io::Result<bool>"),
    ("1c", "an index or a count that stands for none", r"fn place\(&self, slot: u16\) -> usize"),
    ("1d", "a Result or an Option handed on by hand",
     r"None => (?:return )?Err\(|Err\(\w+\) => (?:return )?Err\(|let (?:Some|Ok)\(\w+\) = [^;{]* else \{\s*return|Some\((\w+)\) => \1,\s*None =>"),
    ("1e", "a bool that says whether a change was made", r"fn (?!edges|prepends)\w+(?:<[^(]*>)?\([^;{]*&mut [^;{]*\)\s*-> bool"),
    ("2a", "an impl of a kind for each number and struct", r"impl Kind for \w+ "),
    ("2b", "an impl of reading a value for each kind", r"impl Value for [\w<>]+ "),
    ("2c", "functions that differ in a type, a size or a constant",
     r"fn (?:valid_slot|read_u16|read_u32|get_u8|get_u16|get_uoffset|padding_of_\w+|least_second|most_second"
     r"|f(?:32|64)_to_little_endian|find_string|find_vtable|is_string|begins_alike|stands_at)[<(]"
     r"|fn find<S|fn (?:slot|offset|count)\(&mut self\)"),
    ("2d", "types and constants that are the same", r"struct (?:FieldLocs|Offsets) |const MAX_SIZE"),
    ("2e", "the same test or step at the head or the end of a call",
     r"if self\.inner\.finished \{|match self\.inner\.nest \{|min_align = self\.inner\.min_align\.max"),
    ("2f", "empty impls of a marker", r"impl(?:<T>)? (?:Inline|SimpleToVerifyInSlice|Integer) for [^{]*\{\}"),
    ("3a", "loops that count by hand", r"\n\s*while |for \w+ in \(?0\.\.|for _ in 0\.\."),
    ("3b", "bytes taken one by one at an index", r"\b\w+\[\w+ \+ [0-9]\]"),
    ("4a", "equality, copying and cloning by hand", r"fn equals\([^;{]*\{|impl<[^\n]*> (?:Clone|Copy|PartialEq) for"),
    ("4b", "conversion of numbers by hand", r"% (?:65536|4294967296|256)\)? as u|% 4294967296\) as|/ 256|u128\)"),
    ("4c", "conversion, parsing and printing by hand",
     r"fn (?:done|at|bytes)<E: Drop>|fn kind_named|fn number<T|fn hexadecimal|\{number\}, \{refusal:\?\}"),
    ("5a", "a store's list and limit handed to a definition", r"S\.Allocator\.list S\.Allocator\.limit"),
    ("5b", "a kind's meaning and law handed to a definition", r"T\.Kind\.meaning T\.Kind\.lawful"),
    ("5c", "that a length is the vtable's", r"len ≡ vtable_length"),
    ("5d", "a count cut to the list at run time", r"used\.min\(|len\.min\(self\.bytes"),
    ("5e", "a trace handed beside its verifier", r"trace: &mut \[TraceRecord\]"),
    ("5f", "words and heap, or bytes and offset, handed side by side", r"words: &mut Words|heap: Global[,)]|bytes: &\[u8\], offset: u32"),
    ("6", "buffers with a length beside them",
     r"\[FieldLoc; SLOTS\],|\[u32; ENTRIES\],|bytes: \[u8; SIZE\],|bytes: &'a mut \[u8\],\n\s*len"),
    ("7", "switches on which step to run", r"match name \{|if name == |at_kind!\("),
]


def sources():
    return sorted(glob.glob("crates/*/src/**/*.rt", recursive=True))


def places(pattern):
    for path in sources():
        with open(path, encoding="utf-8") as file:
            text = file.read()
        for match in re.finditer(pattern, text):
            line = text.count("\n", 0, match.start()) + 1
            yield f"{path}:{line}: {' '.join(match.group(0).split())[:90]}"


def main():
    words = sys.argv[1:]
    wanted = [word for word in words if word != "-v"]
    for row, what, pattern in ROWS:
        if wanted and row not in wanted:
            continue
        found = list(places(pattern))
        print(f"{row:3} {len(found):4}  {what}")
        if "-v" in words:
            print("".join(f"      {place}\n" for place in found), end="")
    answers = sum(len(re.findall(r"(?m)^pub \S+ : goal\.", open(p, encoding="utf-8").read()))
                  for p in glob.glob("crates/*/proofs/**/*.antt", recursive=True))
    lines = sum(1 for p in glob.glob("crates/*/proofs/**/*.antt", recursive=True) for _ in open(p, encoding="utf-8"))
    if not wanted or "8" in wanted:
        print(f"8   {answers:4}  answers of goals, in {lines} lines of proofs")


if __name__ == "__main__":
    main()
