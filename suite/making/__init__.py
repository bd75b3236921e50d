"""Makes the suite: an assembler, fonts, and the list of cases."""
