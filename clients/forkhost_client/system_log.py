"""What whoever runs a program of this machine should read, and its user not."""


def tell_system(text: str) -> None:
    """To syslog(3), where that is. Standard error is the user's, whom the log does not concern."""
    from syslog import LOG_DAEMON, LOG_WARNING, syslog

    syslog(LOG_DAEMON | LOG_WARNING, text.encode("utf-8", "backslashreplace").decode())
