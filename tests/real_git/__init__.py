"""What Git makes, sent to the program and compared with what Git says."""
