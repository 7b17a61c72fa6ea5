"""The report card of a driver: runs its scenarios and writes the results as text, JUnit XML and an HTML page."""
