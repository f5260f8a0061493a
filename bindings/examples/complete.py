"""complete.py WORDS PREFIX..: the first ten words of a list that begin with each prefix.

A word ends in a byte 0 in the map, since no stored key may be a prefix of another.
"""

import sys
from itertools import islice

from art_map import ArtMap

words = ArtMap()
with open(sys.argv[1], "rb") as lines:
    for line, word in enumerate(lines):
        if word.strip():
            words[word.strip() + b"\0"] = line + 1

for prefix in sys.argv[2:]:
    found = islice(words.items(prefix=prefix.encode()), 10)
    print(prefix + ":", ", ".join(word[:-1].decode() for word, _ in found))
