"""Frames of requests and of replies, as the clients write and read them."""
from forkhost_client.frames import BAD_FRAME, frame, framed, frames, replies

__all__ = ["BAD_FRAME", "frame", "framed", "frames", "replies"]
