"""Git over a host by the remote helper."""
