"""Builds the peer and says where its programs stand; runs programs."""
import pathlib, subprocess

HERE = pathlib.Path(__file__).resolve().parent
TOP = HERE.parent


def cargo(*words):
    subprocess.run(["cargo", "build", "--offline", "--quiet", *words], cwd=HERE / "peer", check=True)


def built(name):
    """A program of the peer that looks at every lent buffer: for all but bench."""
    cargo("--release")
    return HERE / "peer/target/release" / name


def measured(name):
    """The same program without what only a test needs: Cargo.toml has its profile."""
    cargo("--profile", "measured")
    return HERE / "peer/target/measured" / name


def output(*words, **more):
    """What a program writes; one that fails ends the run."""
    return subprocess.run([str(word) for word in words], check=True, stdout=subprocess.PIPE, **more).stdout


def launched(name):
    """The words that run a program of the product, which is proved and built first where it is not."""
    return output(HERE / "program", "--words", name).decode().split("\n")[:-1]
