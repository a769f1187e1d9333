"""What the commands share: what they need, their folder, and cargo."""
import os
import shutil
import subprocess
import sys
import tempfile
from pathlib import Path

COMPARE = Path(__file__).resolve().parent
REPOSITORY = COMPARE.parent
OUT = Path(os.environ.get("COMPARE_OUT") or Path(tempfile.gettempdir()) / "net_base_compare")
# Cargo's default profile of a release, in place of the one of this workspace.
DEFAULT_PROFILE = {"CARGO_PROFILE_RELEASE_LTO": "false", "CARGO_PROFILE_RELEASE_CODEGEN_UNITS": "16"}
FILES = [
    "storage/mod.rs", "storage/assembler.rs", "storage/packet_buffer.rs", "storage/ring_buffer.rs",
    "rand.rs", "time.rs",
]


def need(programs):
    """The folder of smoltcp; ends with one line that says what is missing."""
    smoltcp = os.environ.get("SMOLTCP")
    if not smoltcp:
        sys.exit("SMOLTCP is not set: it names the folder of a checkout of smoltcp 0.14.0")
    for file in FILES:
        if not (Path(smoltcp) / "src" / file).is_file():
            sys.exit(f"SMOLTCP has no file {Path(smoltcp) / 'src' / file}")
    for program in programs:
        if not shutil.which(program):
            sys.exit(f"the program {program} is not found")
    return Path(smoltcp).resolve()


def run(words, log, **options):
    """Runs a command with its output in a file of OUT; ends with the file's last lines if it fails."""
    OUT.mkdir(parents=True, exist_ok=True)
    path = OUT / f"{log}.log"
    with open(path, "w") as file:
        status = subprocess.run(words, stdout=file, stderr=subprocess.STDOUT, **options).returncode
    if status:
        tail = "\n".join(path.read_text(errors="replace").splitlines()[-20:])
        sys.exit(f"{tail}\n{' '.join(map(str, words))} failed: {path}")


def cargo(profile, packages, smoltcp, folder=COMPARE, only=(), **variables):
    """Builds packages of a workspace, or only some of their targets, and returns the folder of what was built."""
    target = Path(variables.get("CARGO_TARGET_DIR") or os.environ.get("CARGO_TARGET_DIR") or OUT / "target")
    words = ["cargo", "build", "--offline", "--profile", profile]
    for package in packages:
        words += ["--package", package]
    words += only
    environment = os.environ | {"CARGO_TARGET_DIR": str(target), "SMOLTCP": str(smoltcp)} | variables
    run(words, f"cargo_{packages[0]}", cwd=folder, env=environment)
    return target / profile
