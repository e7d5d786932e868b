"""Why a store isn't the manifest's. The text of each is one line that says what to do."""


class Fault(Exception):
    """The store stays as it is."""


class SetUp(Fault):
    """CONFIG, or what is installed, can't be used."""


class Stale(Fault):
    """The manifest is past its time."""


class Refused(Fault):
    """What the site says isn't taken."""


class NotReached(Fault):
    """Something didn't come, or the system refused something; another run may do better."""
