#!/usr/bin/env python3
"""vectors.py: writes vectors.script and vectors.stdout, ten seeds of the generator one after the
other, the last three of them about listings, and what the peer answers. Each part begins with a
fresh or a card, so none leans on the one before. It takes no words."""
import sys

sys.dont_write_bytecode = True
from engine import HERE, built, output
from usage import told

told(__doc__)
SEEDS = {seed: ["listing"] if seed > 107 else [] for seed in range(101, 111)}
CALLS = 600

generate = built("generate")
script = b"".join(f"# seed {' '.join([str(seed), *mode])}\n".encode() + output(generate, seed, CALLS, *mode) for seed, mode in SEEDS.items())
(HERE / "vectors.script").write_bytes(script)
answers = output(built("peer"), HERE / "vectors.script")
(HERE / "vectors.stdout").write_bytes(answers)
accepted = sum(line.startswith((b"9000", b"6310")) for line in answers.splitlines())
print(f"vectors: {len(answers.splitlines())} calls, {accepted} accepted")
