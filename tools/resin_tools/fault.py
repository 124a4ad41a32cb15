"""What a user did wrong."""


class Wrong(Exception):
    """One clear line about a wrong word, file or folder. The command prints it and ends with the status 2."""
