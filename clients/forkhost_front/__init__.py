"""What stands before a host and knows its users: Git's own server programs over SSH and HTTP, by caches of packs."""
