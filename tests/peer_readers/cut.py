#!/usr/bin/env python3
"""Cuts the program printed in RFC 6386 (section 20) out of the RFC's text, file by file, without the page breaks.
Call: cut.py RFC6386.TXT FOLDER
FOLDER/plain has the files that the header needs, as they are printed. FOLDER/counted has them with two lines of the boolean decoder
changed: one counts bools and doublings, one holds the value in two bytes, so that a bit that reaches 256 is dropped (D5)."""
import os
import re
import sys

NEEDED = ("bit_ops.h bool_decoder.h dequant_data.h dixie.c dixie.h dixie_loopfilter.h modemv.h modemv_data.h predict.h tokens.h "
          "vp8_prob_data.h").split()
PAGE_BREAK = r"\n*\nBankoski, et al\. +Informational +\[Page \d+\]\n\f?\n?RFC 6386 .*\n"
SECTION = r"\n20\.\d+\.  (\S+)(?: File)?\n"
BLOCK = r"---- Begin code block -+\n(.*?)\n *---- End code block"
CHANGED = (
    (r"while \(d->range < 128\)", "for (seen_bools++; d->range < 128; seen_doublings++)"),
    (r"unsigned int( +)value;", r"unsigned short\1value;"),
)


def program(text):
    """The files of section 20: their names and their code."""
    text = re.sub(PAGE_BREAK, "\n", text.replace("\r\n", "\n"))
    sections = re.split(SECTION, text[text.index("\n20.1.  bit_ops.h"):])
    files = {}
    for name, body in zip(sections[1::2], sections[2::2]):
        lines = "\n".join(re.findall(BLOCK, body, re.S)).split("\n")
        files[name] = "\n".join(line.removeprefix("   ") for line in lines) + "\n"
    return files


def counted(decoder):
    for old, new in CHANGED:
        decoder, places = re.subn(old, new, decoder)
        if places != 1:
            sys.exit(f"cut.py: {places} places for {old} in the boolean decoder")
    return decoder


def write(folder, files):
    os.makedirs(folder, exist_ok=True)
    for name, text in files.items():
        with open(os.path.join(folder, name), "w") as out:
            out.write(text)


def main():
    source, folder = sys.argv[1:]
    with open(source, encoding="latin-1") as file:
        text = file.read()
    if "\n20.1.  bit_ops.h" not in text:
        sys.exit(f"cut.py: {source} is not the text of RFC 6386: it has no section 20.1")
    files = program(text)
    lacking = [name for name in NEEDED if not files.get(name, "").strip()]
    if lacking:
        sys.exit(f"cut.py: no code of {', '.join(lacking)} in {source}")
    plain = {name: files[name] for name in NEEDED}
    write(os.path.join(folder, "plain"), plain)
    write(os.path.join(folder, "counted"), plain | {"bool_decoder.h": counted(plain["bool_decoder.h"])})


main()
