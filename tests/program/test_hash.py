"""Which names share a list of the program's hash, by the seed."""
import re

from lib.world import PROGRAM, Case, run, wants

SEED, FIRST = 0, b"E\x9e\xc7X\xb6\xac`\xbd"
"""A seed, and the first eight bytes of names of 16 bytes that have one hash under it.

The hash of such a name multiplies its first word with its second, after it has joined the first by `^` with a number that SipHash-1-3
makes of the seed. This word makes that 0, and so the product, whatever the second word is. It was computed from the published
algorithm; if the hash is changed, it has to be computed anew.
"""
NAMES = [FIRST + b"%08d" % number for number in range(1000)]
"""Where all of them are in one list, each look-up passes those that came before."""


class Seeds(Case):
    def instructions(self, seed: int) -> int:
        """Locks the names in one transaction. Returns how many instructions the program executed."""
        text = b"begin\n" + b"".join(b"lock 0.1 %b\n" % name for name in NAMES)
        counts = ["valgrind", "--tool=callgrind", "--callgrind-out-file=/dev/null"]
        told = run(*counts, PROGRAM, "locks", "--transactions", "4", "--names", "4096", "--seed", str(seed), given=text)
        self.assertEqual((told.status, told.out), (0, b"begun 0.1\n" + b"granted\n" * len(NAMES)))
        collected = re.search(rb"Collected : (\d+)", told.err)
        assert collected, told.err
        return int(collected[1])

    def test_seed_decides(self) -> None:
        """Names that were chosen to share one list of the hash of a seed do so with that seed, and not with another one: the program then makes
        half a million comparisons, so it executes ten times as many instructions."""
        wants("valgrind")
        self.assertGreater(self.instructions(SEED), 4 * self.instructions(SEED + 1))
