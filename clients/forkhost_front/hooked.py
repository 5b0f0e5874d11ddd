"""How a hook is told of the request to which it belongs: names in its environment."""
PLACE, TENANT, REPOSITORY = "FORKHOST_SETTINGS", "FORKHOST_TENANT", "FORKHOST_REPOSITORY"
# Files that are open in the hook: that of the cache's lock, and that to which the replies' words go.
LOCK, REPORT = "FORKHOST_LOCK", "FORKHOST_REPORT"
