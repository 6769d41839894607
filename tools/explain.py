"""Says what the line of a refusal or a limit of `kh` means: `kh.codes.explain` says how. `tools/kh-help` calls it."""
import sys

from kh.codes.explain import main

if __name__ == "__main__":
    sys.exit(main(*sys.argv[1:]))
