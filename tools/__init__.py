"""What the scripts of this repository share. `where.py` and `recipe.py` are scripts of their own: `python3 -m tools.where WORD`.

files            the repository's folder; a file's text
arguments        the words of a script
counting         what holds and what does not
processes        processor time of a process
crates           crates.txt as a graph
kit              the toolchain's `rt` as a module; how many checks there is room for
proof_times      how long the proof of each crate takes
kept             what the proofs keep, in figures that load does not change
lanes            the proof of one crate in a tree of its own
encoding         the binary format, written and cut into sections
random_modules   valid modules of every shape
worst_cases      modules that are made to cost much
reports          what a report may say where memory is refused
editors          colours and symbols for editors; no script has it
"""
