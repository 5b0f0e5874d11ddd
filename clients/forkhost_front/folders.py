"""The folders of the caches: one for each tenant, open to nobody else."""
import os

from forkhost_client.faults import Internal

OPEN_TO_OTHERS = 0o077
FAILED = "the front end failed"


def own_folder(path: str) -> str:
    """Makes the folder if it is not there."""
    try:
        os.mkdir(path, 0o700)
    except FileExistsError:
        pass
    except OSError as fault:
        raise Internal(f"cannot make the folder '{path}': {fault.strerror or fault}", FAILED) from fault
    if os.stat(path).st_mode & OPEN_TO_OTHERS:
        raise Internal(f"the folder '{path}' is open to others", FAILED)
    return path
