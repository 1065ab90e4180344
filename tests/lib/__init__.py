"""What the tests in Python share. The runners (run.sh) put the folder tests/ on Python's path, so that a test writes
`from lib.frames import frame`."""
