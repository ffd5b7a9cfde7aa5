"""The tests, each run from the root of the repository: `python3 -m tests.NAME`. README.md says what each holds."""
