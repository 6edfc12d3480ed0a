"""What has to be there before anything is tried."""
import importlib.util, os, shutil

# Programs, by the Debian package that has them.
PACKAGES = {
    "rpki-client": ("rpki-client",),
    "fort-validator": ("fort",),
    "octorpki": ("octorpki",),
    "openssl": ("openssl",),
    "iproute2": ("ip",),
    "util-linux": ("unshare",),
    "gcc": ("cc",),
}
# A Python package that signer/krill-signer needs, and its Debian package.
PYTHON_PACKAGE, PYTHON_DEBIAN = "cryptography", "python3-cryptography"


def missing_packages():
    """The Debian packages that are missing, in order."""
    missing = [package for package, programs in PACKAGES.items() if not all(map(shutil.which, programs))]
    if importlib.util.find_spec(PYTHON_PACKAGE) is None:
        missing.append(PYTHON_DEBIAN)
    return missing


def what_is_missing(program):
    """A line for each thing that is missing. `program` is where krillc should stand."""
    lines = [f"the package {package} is missing" for package in missing_packages()]
    if os.geteuid() != 0:
        lines.append("it has to be run as root, which makes the namespaces")
    if not os.access(program, os.X_OK):
        lines.append(f"{program} isn't there: 'make build' makes it, or KRILLC=PROGRAM names another one")
    return lines
