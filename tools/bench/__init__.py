# SPDX-License-Identifier: MIT
"""Measurements."""
