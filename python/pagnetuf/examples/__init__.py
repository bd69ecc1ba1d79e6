"""Examples for other libraries, each run by its name: `python3 -m pagnetuf.examples.plot`."""
