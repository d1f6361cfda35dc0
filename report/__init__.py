"""A night as a page: tools/report."""
