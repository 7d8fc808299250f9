"""Breaks a transaction manager at every point, and says whether it stayed atomic."""
