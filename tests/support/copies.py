"""Copies of the repository, in which a script may change something."""
import os, shutil

TOP = os.path.dirname(os.path.dirname(os.path.dirname(os.path.abspath(__file__))))

def copy_repository(folder):
    """Copies the repository into the folder, with what is proved there, and returns the path of the copy."""
    repository = os.path.join(folder, 'repository')
    shutil.copytree(TOP, repository, ignore=shutil.ignore_patterns('.git', '.qc'))
    return repository
