#!/usr/bin/env python3
"""Writes the texts that the tests of bindings/libyaml run over: those of the vectors, and broken ones made of them.

    inputs.py FOLDER     FOLDER/given/SUM, with those of CUT, and two broken ones of each, FOLDER/broken/SUM

A file is named by the first twelve digits of its text's SHA-256, and what is broken depends on the text alone, so that a list of
files outlives new vectors.
"""
import hashlib
import json
import os
import random
import sys

TOP = os.path.dirname(os.path.dirname(os.path.dirname(os.path.dirname(os.path.abspath(__file__)))))
VECTORS = f"{TOP}/crates/yaml_cli_vectors/stdin"
LONGEST = 4096
PIECES = [b"\n", b" ", b"\t", b"- ", b": ", b"? ", b"[", b"]", b"{", b"}", b",", b"&a ", b"*a", b"!t ", b"|\n", b">\n", b"'", b'"', b"#",
          b"%YAML 1.1\n", b"---\n", b"...\n", b"\xc3\xa9", b"\xff", b"\x00", b"\xef\xbb\xbf", b"\xff\xfe", b"\\x", b"\r\n", b"\xe2\x80\xa8"]
# Texts with places where an input, or what is emitted of its events, is cut or mustn't be.
CUT = [
    b"a: b\n--- c\n---\n- d\n--- |\n e\n---\tf\n---\r\ng\n", b"%YAML 1.1\n--- a\n...\n# c\n%YAML 1.1\n\n--- b\n",
    b"... a\n%b\n\n---\nc\n", b"a\n%b\n--- c\n", b"'a\n--- b\n'\n--- c\n", b"[a\n--- b\n---\nc: d\n", b"--- a\n... \n%TAG !a! b\n---\n!a!c d\n",
    b"- |+\n  a\n\n- b\n- c\n", b"- a\n- b\n- >+\n  a\n\n- b\n- c\n- d\n", b"x: |+\n  a\n\nb: c\nd: e\nf: g\n",
    b"? - a\n  - b\n  - c\n  - d\n: e\n? f: g\n  h: i\n  j: k\n: - l\n  - m\n  - n\n  - o\no: p\n",
    b"? ? - a\n    - b\n    - c\n    - d\n  : e\n: f\ng: h\ni: j\n", b"- - - a\n    - b\n    - c\n  - d\n  - e\n- ? k\n  : - v\n    - w\n    - x\n",
    b"a: b\nk:\n- m\n- n\nc: d\n  e\nf: |\n  g\n\nh: 'i\nj: k'\nl: [m,\nn: o]\np: q: r\n", b"a: b\n...\nc: d\n", b" a: b\nc: d\n",
    b"- a\n- b\n- - c\n  - d\n- |\n e\n\n- k: v\n- 'f\n- g'\n- h\n i\n]\n", b"--- !t\na: b\nc: d\n", b"- a\n- b\n- c\nd: e\n",
    b"? a\n: b\nc: d\n? e\nf: g\nh\ni: j\n", b"%TAG !a! b\n---\n- !a!c d\n- !a!e f\n", b"a: b\r\nc: d\r\ne:\r\n- f\r\ng: h\ri: j\n",
    b"# c\n---\na: \xc3\xa9\nb: ! c\n\xc3\xa9: d\ne: &f g\nh: *f\ni: \"\\q\"\n", b"a: b\nc: d\n--- e\n---\n- f\n- g\n",
    b"[a,\n{b: c,\nd: [e,\nf], 'g':\nh},\n[i,\nj]: k,\n? l : m,\nn\n,o # p\n, q]\n", b"{a: [b,\nc,\nd],\ne,\n? [f,\ng]: h,\ni: {j:\n\nk},\nl: m}: n\n",
    b"--- [a,\n[[b,\nc],\n{d: e}, f],\n\xc3\xa9, g\n, h\n--- i\n", b"[a,\nb,\n&c [d,\ne], !f [g,\nh],\n{i: &j {k: l,\nm: n},\no: p},\nq,\n{r: s,\nt: u\n",
    b"a:\n- b\n- &c\n  - d\n  - e\n- {f: g, h: [i]}\n- []\n- |\n  j\n- k: >-\n    l\n  m: n\no: p\n",
    b"a: b\n...\n# c\rd: e\n%YAML 1.1\n---\nf\n", b"a: b\n...\n# c\xc2\x85d: e\n%YAML 1.1\n---\nf\n", b"a: b\n...\n# c\xe2\x80\xa8d\n%YAML 1.1\n---\ne\n",
    b"a: b\n...\n \t\n%YAML 1.1\n---\nc\n", b"a: b\n...\t \r\n  # c\r\n \r\n%YAML 1.1\r\n---\r\nd\r\n", b"a: [b\n...\n%YAML 1.1\n---\nc\n",
]


def given():
    """The vectors' texts, each once, in their order."""
    texts = {}
    with open(VECTORS, encoding="utf-8") as file:
        for line in file:
            vector = json.loads(line)
            for field in ("input", "input2"):
                if isinstance(vector.get(field), str):
                    text = bytes.fromhex(vector[field])
                    if len(text) <= LONGEST:
                        texts[text] = None
    return list(texts)


def broken(whole, dice):
    """The text with some places changed."""
    text = bytearray(whole)
    for _ in range(dice.randint(1, 4)):
        at = dice.randint(0, len(text))
        way = dice.randint(0, 3)
        if way == 0:
            text[at:at] = dice.choice(PIECES)
        elif way == 1:
            del text[at:at + dice.randint(1, 5)]
        elif way == 2:
            text[at:at + 1] = dice.choice(PIECES)
        else:
            del text[at:]
    return bytes(text)


def write(folder, texts):
    os.makedirs(folder, exist_ok=True)
    for text in texts:
        with open(f"{folder}/{hashlib.sha256(text).hexdigest()[:12]}", "wb") as file:
            file.write(text)


def two_broken(text):
    dice = random.Random(hashlib.sha256(text).digest())
    return [broken(text, dice) for _ in range(2)]


def main(words):
    folder, = words
    texts = given()
    texts += CUT
    write(f"{folder}/given", texts)
    write(f"{folder}/broken", (it for text in texts for it in two_broken(text)))


if __name__ == "__main__":
    main(sys.argv[1:])
