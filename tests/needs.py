"""What a test needs before it begins. What is missing is said in the test's name, with status 2."""
import os
import shutil
import subprocess
import sys

ROOT = os.path.dirname(os.path.dirname(os.path.abspath(__file__)))
SECONDS = 3600  # the first call of tools/ask may have to prove the library


def refuse(script, why):
    print(f"{script}: {why}", file=sys.stderr)
    sys.exit(2)


def need(usage, fits, programs=(), by=None, ask=False):
    """The words fit the usage, whose first is the test's name; the programs are built, by `tools/build` or as said; tools/ask answers."""
    script = usage.split()[0]
    if not fits or any(word.startswith("-") for word in sys.argv[1:]):
        refuse(script, f"usage: {usage}")
    for path in programs:
        if not os.path.isfile(path) or not os.access(path, os.X_OK):
            if not by and os.path.dirname(path) == os.path.join(ROOT, "target", "bin"):
                by = f"tools/build {os.path.basename(path)}"
            refuse(script, f"{path} is not built: {by}" if by else f"there is no program {path}")
    if ask and not shutil.which("rt"):
        refuse(script, "the Rattle toolchain (rt) is not on PATH, and tools/ask needs it")
    if ask:
        run = subprocess.run([os.path.join(ROOT, "tools", "ask"), "observe"], input=b"", stdout=subprocess.PIPE, timeout=SECONDS)
        if run.returncode != 0:
            refuse(script, "tools/ask does not answer")
