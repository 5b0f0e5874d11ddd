"""Two machines of a service, and a distributed file system between them, in a box of one computer."""
