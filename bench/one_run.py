"""Runs words and tells, on the open file of a number, how they ended and what they took: the
status, the seconds that went by, those of processor time and the peak memory in bytes.

A process counts what the one held that began it. So a script that holds much begins its runs by
this one, which holds little.
"""

import os
import sys
import time


def main(out, words):
    began = time.perf_counter()
    child = os.posix_spawn(words[0], words, os.environ)
    _, status, used = os.wait4(child, 0)
    seconds = time.perf_counter() - began
    peak = used.ru_maxrss * (1 if sys.platform == "darwin" else 1024)
    ended = os.waitstatus_to_exitcode(status)
    told = (ended, seconds, used.ru_utime + used.ru_stime, peak)
    os.write(int(out), " ".join(map(str, told)).encode())


if __name__ == "__main__":
    main(sys.argv[1], sys.argv[2:])
