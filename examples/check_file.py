#!/usr/bin/env python3
# check_file.py FILE: is this a good Standard MIDI File? Exit 0 yes, 1 no, or it cannot be read.
import ctypes, sys
library = ctypes.CDLL("libnoferkash.so.0")
library.noferkash_check.argtypes = [ctypes.c_char_p, ctypes.c_size_t]
library.noferkash_check.restype = ctypes.c_uint64
file = open(sys.argv[1], "rb").read()
answer = library.noferkash_check(file, len(file))
number, place = answer >> 56, answer >> 28 & 0xFFFFFFF
sys.exit(f"{sys.argv[1]}: refused {number} at byte {place}" if number else 0)
