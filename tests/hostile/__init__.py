"""Folders that are altered."""
