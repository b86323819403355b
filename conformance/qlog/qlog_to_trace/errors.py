"""What is wrong with an input."""

from netlog_to_qlog.errors import Torn, Unusable

__all__ = ["Torn", "Unusable"]
