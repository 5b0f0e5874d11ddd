"""Git over SSH and HTTP."""
