# SPDX-License-Identifier: MIT
"""Files off discs that fcore doesn't accept: what the job `rescue` reads, how far it trusts it, and what it writes."""
