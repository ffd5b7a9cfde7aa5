"""The words of a script: its text at the head is what --help prints."""
import argparse
import os
import sys


def parser(text):
    """Of a script that is run as a module --help says so."""
    module = sys.modules['__main__'].__spec__
    name = f'python3 -m {module.name.removesuffix(".__main__")}' if module else None
    return argparse.ArgumentParser(prog=name, description=text, formatter_class=argparse.RawDescriptionHelpFormatter)


def program(text):
    """The path of the program, where a script takes no other word."""
    return of_program(text).parse_args().gate


def program_and_results(text):
    """The path of the program, and of the file for what is measured, or nothing."""
    words = of_program(text)
    words.add_argument('--results', metavar='FILE.tsv', help='write what was measured, with what it was measured on')
    chosen = words.parse_args()
    return chosen.gate, chosen.results


def of_program(text):
    words = parser(text)
    words.add_argument('gate', metavar='GATE', type=os.path.abspath, help='the program')
    return words
