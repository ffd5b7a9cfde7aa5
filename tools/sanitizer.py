"""The program of `./gate --unproved`: it is built with a sanitizer, which takes more stack, memory and time than the program has."""


def has_sanitizer(program):
    with open(program, 'rb') as file:
        return b'AddressSanitizer' in file.read()
