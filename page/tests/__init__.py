"""Tests of the page: its server's answers, and the page in a browser."""
