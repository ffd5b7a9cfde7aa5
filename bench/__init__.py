"""What measures, each script run from the root of the repository: `python3 -m bench.NAME`. README.md says what each does."""
