"""The client for plain Git: a remote helper, and one request by hand. It speaks frames as anybody may."""
