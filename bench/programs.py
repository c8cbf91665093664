"""What the scripts here share: building, and commands by name."""
import pathlib
import shlex
import subprocess

HERE = pathlib.Path(__file__).resolve().parent


def build():
    """The folder with the reference program and the generator."""
    done = subprocess.run([HERE / "build"], check=True, stdout=subprocess.PIPE, text=True)
    return pathlib.Path(done.stdout.strip())


def command(words, folder):
    """A command with its arguments; "reference" stands for the reference."""
    words = shlex.split(words)
    if words[0] == "reference":
        words[0] = str(folder / "reference")
    return words
