"""The parts of tests/run: each module has the jobs of one."""
