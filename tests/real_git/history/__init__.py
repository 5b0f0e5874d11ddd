"""Queries of history beside Git."""
