"""The tools that a test can't do without."""
import os, shutil, sys

SKIPPED = 77

def missing_commands(*names):
    """Returns the commands of these that aren't there."""
    return [name for name in names if shutil.which(name) is None]

def skip_without(lacks):
    """Ends the test as skipped, with the status 77, where it lacks something."""
    if lacks:
        print(f"{os.path.basename(sys.argv[0])}: skipped: {', '.join(lacks)} missing (tests/setup --install)")
        sys.exit(SKIPPED)
