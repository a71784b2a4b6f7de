"""Why something isn't proved."""


class Stuck(Exception):
    """What the executor doesn't know, or the solver doesn't answer."""


class Wrong(Exception):
    """What doesn't hold."""
