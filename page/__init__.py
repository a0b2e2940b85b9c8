"""A page on which to try patterns, served only on this machine."""
