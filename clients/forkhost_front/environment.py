"""What Git's programs see in a cache: these settings, and nothing of whoever asks or runs the front end."""
import os

HERE = os.path.dirname(os.path.realpath(__file__))
SETTINGS = {
    # What Git's own check refuses is refused here, though the host may take it.
    "receive.fsckObjects": "true",
    # All that comes is a pack.
    "receive.unpackLimit": "1",
    "fetch.unpackLimit": "1",
    # The host is asked for each reference.
    "receive.procReceiveRefs": "refs",
    "core.hooksPath": os.path.join(HERE, "hooks"),
    # Whatever the cache has is the tenant's.
    "uploadpack.allowFilter": "true",
    # Its patterns come from a user, and a short one can keep a processor busy for good.
    "uploadpackfilter.sparse:oid.allow": "false",
    "uploadpack.allowAnySHA1InWant": "true",
    "http.getanyfile": "false",
    # The host takes no object of this length, so such a one is never held in memory.
    "core.bigFileThreshold": "9m",
    # The front end packs and tidies when it has the cache for itself.
    "receive.autogc": "false",
    "gc.auto": "0",
    "maintenance.auto": "false",
    "repack.updateServerInfo": "false",
}
FIXED = {"GIT_CONFIG_GLOBAL": os.devnull, "GIT_CONFIG_NOSYSTEM": "1", "LC_ALL": "C", "GIT_TERMINAL_PROMPT": "0"}
KEPT = ("PATH", "TMPDIR")


def environment(cache: str, most: int) -> dict:
    """`most` bytes one push may bring."""
    settings = {**SETTINGS, "receive.maxInputSize": str(most)}
    found = {name: os.environ[name] for name in KEPT if name in os.environ}
    found |= {**FIXED, "HOME": cache, "GIT_DIR": cache, "GIT_CONFIG_COUNT": str(len(settings))}
    for at, (name, value) in enumerate(settings.items()):
        found |= {f"GIT_CONFIG_KEY_{at}": name, f"GIT_CONFIG_VALUE_{at}": value}
    return found
