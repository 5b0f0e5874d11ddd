"""What `forkhost check` says of a folder."""
import subprocess

from forkhost_client.faults import Fatal
from forkhost_client.frames import text_of

PROGRAM = "forkhost"
SOUND, JOURNAL = b"sound\n", b"journal "


def checked(path: str) -> tuple:
    """What it prints, and what it says on standard error."""
    try:
        ran = subprocess.run([PROGRAM, "check", "--dir", path], stdin=subprocess.DEVNULL, capture_output=True)
    except FileNotFoundError as fault:
        raise Fatal(f"there is no '{PROGRAM}' on the path") from fault
    return ran.stdout, ran.stderr


def judge(path: str) -> None:
    """It is sound, and a start has nothing to do again; or `Fatal`."""
    output, fault = checked(path)
    if output == SOUND and fault.startswith(JOURNAL):
        how = f"'forkhost run --dir {path} < /dev/null' saves them, and ends open uploads"
        raise Fatal(f"the journal of '{path}' has requests; {how}")
    if output != SOUND or fault:
        raise Fatal(f"'{path}' is not sound: {text_of(fault or output).strip()}")
