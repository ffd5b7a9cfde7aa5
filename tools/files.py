"""The repository's folder, and files as text or bytes."""
import os

ROOT = os.path.dirname(os.path.dirname(os.path.realpath(__file__)))


def read(path):
    """The text of a file; a relative path is one of the repository."""
    with open(os.path.join(ROOT, path), encoding='utf-8') as file:
        return file.read()


def shown(name):
    """The bytes of a name as the program shows them: a control character or a backslash as two digits of base 16."""
    return b''.join(b'\\%02x' % byte if byte < 32 or byte in (92, 127) else bytes([byte]) for byte in name)


def write(path, contents):
    """Writes text or bytes into a file; a relative path is one of the repository."""
    is_text = isinstance(contents, str)
    with open(os.path.join(ROOT, path), 'w' if is_text else 'wb', encoding='utf-8' if is_text else None) as file:
        file.write(contents)
