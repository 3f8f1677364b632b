"""What the compiler leaves of reads that only the prover needs: no code; skipped where CHECK_PROGRAM names no program."""

import unittest
from pathlib import Path

from tests.program import PROGRAM


@unittest.skipUnless(PROGRAM, "CHECK_PROGRAM names no program")
class Code(unittest.TestCase):
    def test_reads_for_the_prover_have_no_code(self) -> None:
        code = Path(PROGRAM).read_bytes()
        # The program keeps the names of its functions, so a name that is not there means a function that is not there.
        self.assertIn(b"pv_create::run::create_run", code)
        self.assertFalse(b"pv_tree::apply::parts_fit" in code, "the program has code for parts_fit")


if __name__ == "__main__":
    unittest.main()
