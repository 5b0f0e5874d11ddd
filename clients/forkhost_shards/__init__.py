"""Work on the folders of several hosts while they are stopped: a tenant goes from one to another."""
