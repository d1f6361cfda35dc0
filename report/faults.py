"""What stops a report: it is told on standard error, and no page is written."""


class Fault(Exception):
    pass
