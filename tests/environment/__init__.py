"""The parts of hostile_environment.py: `gate` has what they share."""
