"""The tests of the built programs, of their documentation and of what a release has. They need no toolchain."""
