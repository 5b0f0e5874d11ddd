"""Hosts over folders: what a test makes of them, and what it shows."""
