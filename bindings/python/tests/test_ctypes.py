"""Single calls as they are without the module in C: the same tests over the methods in Python."""

import subprocess
import sys
import unittest

import tz

WITHOUT_C = "import sys; sys.modules['tz._single'] = None; import tz, unittest; "
CHECK = "assert tz.implementation == 'ctypes'; "
TESTS = ["", "test_zone", "test_built_in", "test_cpython", "test_columns"]


class WithoutC(unittest.TestCase):
    def test_all(self):
        if tz.implementation == "ctypes":
            return
        run = f"unittest.main(module=None, argv={TESTS})"
        command = [sys.executable, "-W", "error", "-B", "-c", WITHOUT_C + CHECK + run]
        done = subprocess.run(command, stdout=subprocess.PIPE, stderr=subprocess.STDOUT, text=True)
        self.assertEqual(done.returncode, 0, done.stdout)


if __name__ == "__main__":
    unittest.main()
