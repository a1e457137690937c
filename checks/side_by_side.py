#!/usr/bin/env python3
"""Runs commands side by side, as many at once as there are processors. What each says is printed whole when it ends. The status is 1 if any
failed.

    checks/side_by_side.py 'COMMAND' ..
"""

import os
import subprocess
import sys
import time
from concurrent.futures import ThreadPoolExecutor, as_completed


def run(command):
    begun = time.monotonic()
    how = {"stdin": subprocess.DEVNULL, "stdout": subprocess.PIPE, "stderr": subprocess.STDOUT, "text": True, "errors": "replace"}
    ran = subprocess.run(command, shell=True, **how)
    return command, ran.returncode, ran.stdout, time.monotonic() - begun


def main():
    failed = []
    with ThreadPoolExecutor(len(os.sched_getaffinity(0))) as pool:
        for done in as_completed([pool.submit(run, command) for command in sys.argv[1:]]):
            command, status, said, seconds = done.result()
            print(f"== {command}\n{said}{f'status {status}, ' if status else ''}{seconds:.0f} seconds", flush=True)
            failed += [command] if status else []
    print(f"{len(sys.argv) - 1 - len(failed)} checks passed, {len(failed)} failed{': ' if failed else ''}{', '.join(failed)}")
    sys.exit(1 if failed else 0)


if __name__ == "__main__":
    main()
