"""A collector that acknowledges before the disk has it, which power_test.py has to see."""
import collector


def application():
    """The collector's application with a weaker setting of SQLite."""
    return collector.application(synchronous="NORMAL")
