# SPDX-License-Identifier: MIT
"""The parts of `fcdisc`: daily jobs with images of Acorn discs, over the program `fcore`. Python 3.8, standard library alone."""
