"""Losses of power: what a host did to its folder, what a file system may leave of it, and what a start makes of that."""
