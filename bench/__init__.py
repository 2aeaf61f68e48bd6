"""The benchmarks. `bench/run --list` prints their parts. They are not released."""
