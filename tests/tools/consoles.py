"""What the checks of alm_console share."""


# How a terminal gets reverse, and the colours of the priorities 1 to 4.
REVERSE, COLOURS = "7", ("31", "33", "36", "32")
