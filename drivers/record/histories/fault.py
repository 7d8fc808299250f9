"""Why there is no record."""


class Fault(Exception):
    """Why there is no record."""
