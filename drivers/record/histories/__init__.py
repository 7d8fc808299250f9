"""Histories of operations, as Jepsen writes them, and the records that they become."""
