"""Keeps what a bench script prints as the result of one machine: a text file that begins with a description of it."""

import contextlib
import io
import os
import platform
import shutil
import subprocess
import sys
import time


class Kept(io.StringIO):
    """What is written here is also written to standard output."""

    def write(self, text):
        sys.__stdout__.write(text)
        return super().write(text)

    def flush(self):
        sys.__stdout__.flush()


def add_keep(asked):
    asked.add_argument("--keep", metavar="FILE", help="keep what is printed in this file, below what machine this is")


@contextlib.contextmanager
def keeping(path):
    """Keeps what is printed meanwhile in this file, if there is one. A script that fails keeps nothing."""
    if not path:
        yield
        return
    os.makedirs(os.path.dirname(os.path.abspath(path)), exist_ok=True)
    kept = Kept()
    with contextlib.redirect_stdout(kept):
        for name, value in description():
            print(f"# {name}: {value}")
        yield
    with open(path, "w", encoding="utf-8") as file:
        file.write(kept.getvalue())


def description():
    """Which script this is, and what its times depend on."""
    yield "script", f"bench/{os.path.basename(sys.argv[0])}"
    yield "date", time.strftime("%Y-%m-%d")
    yield "processor", f"{processor()}, {os.cpu_count()} of them, load {os.getloadavg()[0]:.2f}"
    yield "kernel", f"{platform.system()} {platform.release()}"
    yield "kit", first_line(["rt", "version"])
    yield "compiler of the peers", first_line(["cc", "--version"])


def processor():
    with open("/proc/cpuinfo", encoding="utf-8") as file:
        names = [line.split(":", 1)[1].strip() for line in file if line.startswith("model name")]
    return names[0] if names else platform.machine()


def first_line(command):
    if not shutil.which(command[0]):
        return "none"
    done = subprocess.run(command, stdout=subprocess.PIPE, stderr=subprocess.DEVNULL, check=False)
    return done.stdout.decode(errors="replace").split("\n")[0]
