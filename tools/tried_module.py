"""The module of a program that nobody proved, as `rt try` hands it to clang.

`rt try` keeps nothing of what it builds. So it runs from a copy of the kit, of links and few files, in which clang is a script that keeps
the module and stops; the prover, which a try asks for a hint alone, is mute there. The kit itself stays as it is.
"""
import os
import shlex
import shutil
import subprocess
import sys

from .files import read, write
from .kit import in_kit

# What finds the kit by where it stands; what a try asks for a hint alone; and what it hands the module to.
COPIED, MUTE, CLANG = ['bin/rt', 'bin/rtlib.py'], 'bin/rattle', 'toolchain/bin/clang'
KEEPS = '''#!/bin/sh
case " $* " in *" module.bc "*" -fsanitize=address "*)
    cp module.bc {kept}/module.bc && printf '%s\\n' "$@" >{kept}/words
    exit 1;;
esac
exec {clang} "$@"
'''
AS_TEXT = ['--no-default-config', '-S', '-emit-llvm', '-O0', '-Xclang', '-disable-llvm-passes']


def copy_kit(to, kept):
    """A copy of the kit, of links and few files, whose clang keeps the module of a program in a folder, and stops."""
    for part, but in (('', ('bin', 'toolchain')), ('bin', (MUTE, *COPIED)), ('toolchain', ('bin',)), ('toolchain/bin', (CLANG,))):
        os.makedirs(os.path.join(to, part), exist_ok=True)
        for name in set(os.listdir(in_kit(part))) - {os.path.basename(it) for it in but}:
            os.symlink(in_kit(part, name), os.path.join(to, part, name))
    for name in COPIED:
        shutil.copy(in_kit(name), os.path.join(to, name))
    keeps = KEEPS.format(kept=shlex.quote(kept), clang=shlex.quote(in_kit(CLANG)))
    for name, text in ((MUTE, '#!/bin/sh\nexit 0\n'), (CLANG, keeps)):
        write(os.path.join(to, name), text)
        os.chmod(os.path.join(to, name), 0o755)


def keep_module(crate, folder):
    """Has a try hand over the module of the program in that folder; answers the path of the module, and the words that clang got."""
    kit, kept = os.path.join(folder, 'kit'), os.path.join(folder, 'kept')
    os.mkdir(kept)
    copy_kit(kit, kept)
    with subprocess.Popen([sys.executable, os.path.join(kit, 'bin', 'rt'), 'try'], cwd=crate, stdin=subprocess.DEVNULL, errors='replace',
                          stdout=subprocess.PIPE, stderr=subprocess.STDOUT, env={**os.environ, 'TMPDIR': kept}) as tried:
        try:
            said, _ = tried.communicate()
        finally:
            # It ends what it has begun.
            tried.terminate()
    if not os.path.exists(os.path.join(kept, 'words')):
        sys.exit(f'rt try handed no module to clang. It said\n{said}')
    return os.path.join(kept, 'module.bc'), read(os.path.join(kept, 'words')).splitlines()
