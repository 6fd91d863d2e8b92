#!/usr/bin/env python3
"""Counts the places of src/ (and of proofs/) that are written in an older form, by the patterns below.

usage: python3 tools/places.py           at the top of the repository: one line for each pattern
       python3 tools/places.py -v        and below it each place, as file:line and its first line

A pattern shows where to look and judges nothing: what it finds may be as it should be (docs/DESIGN-PASS.md says so of each that stays).
"""
import collections
import glob
import re
import sys

SRC = sorted(p for p in glob.glob("crates/*/src/**/*.rt", recursive=True))

# (point, what, pattern): patterns run over whole files, so that they reach over line ends
PATTERNS = [
    (1, "let-else that hands on None or a fixed error",
     r"let (?:Some|Ok)\([^)]*\) = [^;]*?\belse \{\s*return (?:None|Err\((?!Stopped)[\w:]+(?:\(\w+(?:::\w+)?\)| \{[^}]*\})?\));\s*\};"),
    (1, "match that hands on the other case", r"(?:Err\((\w+)\) => (?:return )?Err\(|None => None,)"),
    (1, "if that makes an Option", r"\{\s*Some\([^{}]*\)\s*\} else \{\s*None\s*\}|\{\s*None\s*\} else \{\s*Some\([^{}]*\)\s*\}"),
    (1, "a number that says that there is none", r"where none (?:does|has it)[^\n]*\n(?:[^\n]*\n)?[^\n]*fn \w+[^\n]*(?:\n[^\n{]*)*?-> (?:usize|u64)"),
    (1, "a number for a kind or a refusal",
     r"match \*number \{|out\[0\] = \d;|write_one\(out, \d|(?:value_bytes|numbered)\(heap, \d|\.number\(\)"),
    (1, "a flag held as a number", r"Field::AtHand\) [=>]=? 0|Field::AtHand, [01]\)"),
    (2, "functions of families that differ in a type, a size or a constant",
     r"fn (?:number_at|root_at|data_at|duty_at|share_at|own_at|past_at|put_byte|put_number|put_root|put_data|put_own|put_ahead|duty_numbers|data_numbers|share_numbers|root_numbers|push_waiting|push_deciding|read_duty|read_share|read_decided|read_resend|write_decided|write_resend|layout_for|from_sizes|needed|size|number|root|named_number|with_slot|sign_of)\b[^\n]*"),
    (2, "read and write of a fixed length, each with its test", r"(?:bytes|out)\.len\(\) < (?:1|8|24|32|128|137) \{"),
    (2, "tests of entries, a type each", r"impl RowTest for"),
    (2, "one constant written twice", r"const ZERO: Root|width: (?:3|16|18),\s*place: [02]"),
    (3, "loop over an index, or counted by hand", r"for \w+ in \(?[\w.]+\.\.[^{]*\{|while [^{]*\{|number = number\.saturating_add"),
    (4, "equality by hand", r"fn (?:same|is_zero)\b"),
    (4, "conversion by hand", r"fn (?:number|place|region|column|words|layout_for|from_sizes|digit_value|digit)\b[^\n]*(?:self|limits|clients|digit|number)"),
    (4, "a cast", r"\bas (?:u8|u16|u32|u64|u128|usize|char)\b"),
    (4, "printing by hand", r"fn \w+_text\(heap|fn \w+_text\(&self, heap|fn words\b"),
    (5, "(memory, layout)", r"memory: &(?:mut )?\[u64\],\s*layout: &Layout"),
    (5, "(region, width, room) or (region, width, count)", r"region: &(?:mut )?\[u64\],\s*width: usize,\s*(?:room|count): usize|region: &(?:mut )?\[u64\],\s*room: usize"),
    (5, "(cells, clients, place)", r"cells: &(?:mut )?\[u64\],\s*clients: usize,\s*place: usize"),
    (5, "(source, target)", r"source: u64,\s*target: u64,?\s*\)|\(u64, u64\)"),
    (5, "(sent, handed_in, begun, ended)", r"sent: &?\[?\w+\]?,\s*handed_in: &?\[?\w+\]?,\s*begun|Row<'a>, Row<'a>, Row<'a>, Row<'a>"),
    (5, "(text, missing)", r"text: &str, missing: Expected"),
    (5, "(rt, name, number)", r"rt: &HostRuntime,\s*name: &str,\s*number: u64"),
    (6, "a buffer with a length beside", r"region: &(?:mut )?\[u64\],\s*count: usize|\[0u8; 256\]|pub count: u8,\s*pub bytes"),
    (6, "own struct for a range", r"\bSpan\b(?= \{ start, end \})|struct Span"),
    (6, "a list of texts that is joined", r"Vec<String>|fn join"),
    (7, "a table of kinds that selects a part", r"match self \{\s*(?:Duties|Slotted|Field)::"),
]


def main():
    verbose = "-v" in sys.argv[1:]
    texts = {p: open(p, encoding="utf-8").read() for p in SRC}
    for point, what, pattern in PATTERNS:
        found = []
        for path, text in texts.items():
            for m in re.finditer(pattern, text):
                line = text.count("\n", 0, m.start()) + 1
                found.append((path, line, m.group(0).split("\n")[0].strip()[:90]))
        by_crate = collections.Counter(p.split("/")[1] for p, _, _ in found)
        crates = ", ".join("%s %d" % c for c in sorted(by_crate.items()))
        print("%d  %-62s %3d  %s" % (point, what, len(found), crates))
        if verbose:
            for path, line, start in found:
                print("       %s:%d: %s" % (path, line, start))
    answers = sorted(glob.glob("crates/*/proofs/**/*.antt", recursive=True))
    lines = sum(1 for p in answers for _ in open(p, encoding="utf-8"))
    print("8  %-62s %3d  %d lines" % ("files in proofs/", len(answers), lines))


main()
