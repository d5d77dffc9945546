"""What the version of the package that this is run with says of a call."""

import tussockbell as tb


def said(ask, *arguments):
    """The refusal's numbers, or none."""
    try:
        ask(*arguments)
    except tb.Refused as refused:
        return refused.number, refused.place, refused.which
