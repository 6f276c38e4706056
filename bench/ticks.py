"""Ticks that can be read, on axes whose steps are powers."""
from matplotlib.ticker import FuncFormatter, LogLocator, NullLocator


def plain(value, _position=None):
    """The number without a power of ten: 0.02, 5, 2,000."""
    return f"{value:,.10f}".rstrip("0").rstrip(".")


def label_plainly(axis, steps=(1, 2, 5)):
    """Labels these multiples of each power of ten, and nothing between."""
    axis.set_major_locator(LogLocator(base=10, subs=steps))
    axis.set_major_formatter(FuncFormatter(plain))
    axis.set_minor_locator(NullLocator())


def label_each(axis, values):
    """Labels these values alone."""
    axis.set_ticks(values, labels=[plain(value) for value in values])
    axis.set_minor_locator(NullLocator())
