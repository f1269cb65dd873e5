"""The two programs that play trace scripts: the library's `trace` and the model."""
import pathlib
import shutil
import subprocess
import sys

ROOT = pathlib.Path(__file__).resolve().parent.parent.parent
TRACE = ROOT / 'target/bin/trace'
MODEL = ROOT / 'target/model/model'
SOURCE = ROOT / 'model/src'
# the longest that a script may take; most take a few hundredths of a second
SECONDS = 60


def find_rustc():
    """Debian's package rustc is older than the model's language; rustc-web is not."""
    if shutil.which('rustc'):
        return
    subprocess.run(['apt-get', 'update'], check=True)
    subprocess.run(['apt-get', 'install', '-y', 'rustc-web'], check=True)


def build_model():
    """The model, compiled anew where its source has changed."""
    newest = max(path.stat().st_mtime for path in SOURCE.glob('*.rs'))
    if not MODEL.exists() or MODEL.stat().st_mtime < newest:
        find_rustc()
        MODEL.parent.mkdir(parents=True, exist_ok=True)
        words = ['rustc', '-O', '--edition', '2021', '-o', MODEL, SOURCE / 'main.rs']
        if subprocess.run(words).returncode != 0:
            sys.exit('the model does not compile')
    return MODEL


def compile_altered(file, old, new, folder):
    """The model with one text of a source file replaced, compiled to `folder`/model. What is wrong with that, if anything is."""
    copy = folder / 'src'
    shutil.copytree(SOURCE, copy)
    text = (copy / file).read_text()
    if text.count(old) != 1:
        return f'its text is {text.count(old)} times in {file}'
    (copy / file).write_text(text.replace(old, new))
    options = ['--edition', '2021', '-A', 'warnings', '-C', 'opt-level=0', '-C', 'debug-assertions=off']
    words = ['rustc'] + options + ['-o', folder / 'model', copy / 'main.rs']
    done = subprocess.run(words, stdout=subprocess.PIPE, stderr=subprocess.STDOUT)
    return '' if done.returncode == 0 else 'it does not compile:\n' + done.stdout.decode()


def play(program, script):
    """What the program prints for a script. It has to end well and say nothing else."""
    done = subprocess.run([program], input=script, stdout=subprocess.PIPE, stderr=subprocess.PIPE, timeout=SECONDS)
    if done.returncode != 0 or done.stderr:
        return done.stdout + f'(status {done.returncode}, said {done.stderr!r})\n'.encode()
    return done.stdout


def first_difference(one, other):
    """The index of the first line that is not the same, and both lines; none if there is none."""
    if one == other:
        return None
    ones, others = one.split(b'\n') + [b'(end)'], other.split(b'\n') + [b'(end)']
    at = next(at for at, (a, b) in enumerate(zip(ones, others)) if a != b)
    return at, ones[at], others[at]
