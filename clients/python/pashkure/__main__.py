"""`python3 -m pashkure` and the script `pashkure` serve nothing: the server is `mmdetect serve`."""
import sys


def main() -> int:
    print("pashkure: this package is a client; the server is started by: mmdetect serve --socket PATH", file=sys.stderr)
    return 2


if __name__ == "__main__":
    sys.exit(main())
