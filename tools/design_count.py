#!/usr/bin/env python3
"""Counts, for docs/DESIGN-PASS.md, the places in crates/*/src that a point of the design pass speaks of.

design_count.py [-v]: a line for each count; -v lists the places. It reads src/ only, so the same command serves before and after.
"""
import collections
import glob
import re
import sys

VERBOSE = "-v" in sys.argv
FILES = sorted(glob.glob("crates/*/src/**/*.rt", recursive=True))


def lines():
    for path in FILES:
        for number, line in enumerate(open(path, encoding="utf-8"), 1):
            yield path, number, line.rstrip("\n")


def say(name, places):
    print(f"{name}: {len(places)}")
    if VERBOSE:
        for place in places:
            print("    " + place)


def matching(pattern, skip=r"^\s*//"):
    found = []
    for path, number, line in lines():
        if not re.match(skip, line) and re.search(pattern, line):
            found.append(f"{path}:{number}: {line.strip()}")
    return found


# 1. enums of two variants of which one holds what was found, and FieldStep, whose last variant holds nothing
def own_options():
    found = []
    for path in FILES:
        text = open(path, encoding="utf-8").read()
        for enum in re.finditer(r"enum (\w+) \{\n(.*?)\n\}", text, re.S):
            body = re.sub(r"\{[^{}]*\}|\([^()]*\)", "", enum.group(2))
            variants = [v.strip() for v in body.split(",") if v.strip()]
            empty = [v for v in variants if re.match(r"(Bad\w*|Un\w*|No\w*|Out\w*|Over|Before|Nowhere|TooMany|Several|Open|Faulty|Misfit|Refused|Stop|Fault|Wrong|Stopped|Off)$", v)]
            if empty:
                found.append(f"{path}: {enum.group(1)} ({', '.join(empty)})")
    return found


say("1a own enums with a variant for 'none' or 'refused'", own_options())
say("1b refusals by a number literal", matching(r"number: \d+\b|refusal\(\d+,|\bbad\(\d+,|Off\(\d+\)|(=>|return) 2[2-9][,;]|\b2[2-9]$|\{ number: \d+"))
say("1c fields and parameters that hold a number of a refusal", matching(r"\bnumber: u8\b|-> u8$", r"^\s*//") )
say("1d kinds by numbers: name, phase, status 1, place and separator 0 for none", matching(r"\bname: u8|\bphase: u8|phase [!=]= \d|phase: \d|const ENDED|place == 0|place != 0|found [!=]= 0|\b(place|cells|kept): usize"))
say("3 loops by while or loop", matching(r"^\s*(while |loop \{|'\w+: loop)"))
say("3b an index counted by hand", matching(r"^\s*(\w+) = \1 [+-] 1;|^\s*\w+ [+-]= 1;"))

say("4a true and false answered by hand", matching(r"^\s*(return )?(true|false);?$"))
say("4b bytes of ASCII written as numbers", matching(r"(const \w+: u8 = |[=<>!]=? )(9|1[03]|3[24]|3[59]|4[45678]|5[0-9]|92|9[57])\b[ ;)]"))


# 5. facts in the contracts of three or more functions
def facts():
    seen = collections.Counter()
    for path, number, line in lines():
        clause = re.match(r"\s*requires \w* ?\{ (.*) \}$", line) or re.match(r"\s*requires \{ (.*) \}$", line)
        if clause:
            seen[re.sub(r"2 \^ \d+", "2 ^ N", clause.group(1))] += 1
    return [f"{n} x {fact}" for fact, n in seen.most_common() if n >= 3]


say("5a facts required by three or more functions", facts())
say("5b functions that pass a room and a place in it", matching(r"out: &mut \[u8\], (at|from): usize|^\s*out: &mut \[u8\],$"))
say("6 parallel lists of rows", matching(r"^\s*places: &mut \[usize\],?|times: &mut \[u32\], statuses|places: &\[usize\]"))
say("functions", matching(r"\bfn \w+"))
say("enums", matching(r"\benum \w+"))
print("lines:", sum(1 for _ in lines()))
