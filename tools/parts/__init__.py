"""The parts of the scripts in tools, the repository's folder, and what a script says that can't go on: one line, with
what to do. The status is 2 where something lacks here, and 1 where something is wrong. No exception shows a trace."""
import subprocess
import sys
import traceback
from pathlib import Path

ROOT = Path(__file__).resolve().parents[2]


def lacks(what):
    """Ends the script, where something lacks."""
    print(f'{Path(sys.argv[0]).stem}: not run: {what}', file=sys.stderr)
    sys.exit(2)


def stop(what):
    """Ends the script, where something is wrong."""
    sys.exit(f'{Path(sys.argv[0]).stem}: {what}')


def fault(error):
    """Where in these scripts an exception came up, and what it says."""
    every = traceback.extract_tb(error.__traceback__)
    at = [it for it in every if ROOT in Path(it.filename).parents or it is every[0]][-1]
    return f'{Path(at.filename).name}:{at.lineno} fails: {type(error).__name__}: {error}'


def ended(kind, error, _):
    """Ends the script by an exception."""
    if kind is KeyboardInterrupt:
        sys.exit(130)
    is_of_program = traceback.extract_tb(error.__traceback__)[-1].filename == subprocess.__file__
    if kind is FileNotFoundError and is_of_program and '/' not in str(error.filename):
        lacks(f'no {error.filename}')
    if kind is subprocess.CalledProcessError:
        command = error.cmd if isinstance(error.cmd, str) else ' '.join(map(str, error.cmd))
        stop(f'{command} ended with status {error.returncode}')
    if isinstance(error, (OSError, AssertionError)):
        stop(fault(error))
    stop(f'{fault(error)}: what it reads is cut short, or in another form: git diff')


sys.excepthook = ended
