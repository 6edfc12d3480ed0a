"""A network of its own: loopback alone, a name on it, a certificate authority that is trusted there, an HTTPS server."""
import functools, http.server, os, ssl, subprocess, threading

from repository import HOST

# What all programs of the namespaces find in the place of the machine's own.
HOSTS, BUNDLE, BUNDLE_FOLDER = "/etc/hosts", "/etc/ssl/certs/ca-certificates.crt", "/etc/ssl/certs"


def in_namespaces(words):
    """Goes on as this program in namespaces of its own, which end with it and what it started."""
    os.execvp("unshare", ["unshare", "--net", "--mount", "--propagation", "private", *words])


def run(*words, folder=None):
    subprocess.run(words, cwd=folder, check=True, stdin=subprocess.DEVNULL, stdout=subprocess.DEVNULL,
                   stderr=subprocess.PIPE)


def make_certificates(folder):
    """A certificate authority of two days, and a certificate of the server's name under it."""
    write_text(os.path.join(folder, "server.ext"), f"subjectAltName=DNS:{HOST}\nbasicConstraints=CA:FALSE\n")
    run("openssl", "req", "-x509", "-newkey", "rsa:2048", "-nodes", "-keyout", "ca.key", "-out", "ca.pem",
        "-subj", "/CN=A trial's own authority", "-days", "2", "-addext", "basicConstraints=critical,CA:TRUE",
        "-addext", "keyUsage=critical,keyCertSign", folder=folder)
    run("openssl", "req", "-newkey", "rsa:2048", "-nodes", "-keyout", "server.key", "-out", "server.csr",
        "-subj", f"/CN={HOST}", folder=folder)
    run("openssl", "x509", "-req", "-in", "server.csr", "-CA", "ca.pem", "-CAkey", "ca.key", "-CAcreateserial",
        "-days", "2", "-extfile", "server.ext", "-out", "server.pem", folder=folder)


def write_text(path, text):
    with open(path, "w", encoding="ascii") as file:
        file.write(text)


def set_up(folder):
    """Makes the network: the name leads to loopback, and the authority made here is the only one that is trusted."""
    os.makedirs(os.path.join(folder, "certs"))
    make_certificates(folder)
    write_text(os.path.join(folder, "hosts"), f"127.0.0.1 localhost {HOST}\n")
    # The bundle, and the folder of it by the hash of the name, since one program reads the one, others the other.
    for name in ("ca-certificates.crt", "ca.pem"):
        run("cp", "ca.pem", os.path.join("certs", name), folder=folder)
    run("openssl", "rehash", "certs", folder=folder)
    run("ip", "link", "set", "lo", "up")
    run("mount", "--bind", os.path.join(folder, "hosts"), HOSTS)
    run("mount", "--bind", os.path.join(folder, "certs"), BUNDLE_FOLDER)


class Pages(http.server.SimpleHTTPRequestHandler):
    """Hands out the server's folder below /rrdp/, and keeps who asked for what."""

    protocol_version = "HTTP/1.1"

    def translate_path(self, path):
        self.directory = self.server.folder
        return super().translate_path(path.removeprefix("/rrdp"))

    def log_request(self, code="-", size="-"):
        self.server.asked.append((self.headers.get("User-Agent", ""), self.path, int(code)))

    def log_message(self, form, *words):
        """Nothing more is kept."""


class Server(http.server.ThreadingHTTPServer):
    """An HTTPS server on loopback whose folder may change."""

    daemon_threads = True

    def __init__(self, folder):
        super().__init__(("127.0.0.1", 443), Pages)
        self.folder, self.asked = None, []
        context = ssl.SSLContext(ssl.PROTOCOL_TLS_SERVER)
        context.load_cert_chain(os.path.join(folder, "server.pem"), os.path.join(folder, "server.key"))
        self.socket = context.wrap_socket(self.socket, server_side=True, do_handshake_on_connect=False)
        threading.Thread(target=self.serve_forever, daemon=True).start()

    def handle_error(self, request, client_address):
        """A client that goes away is no fault of the server."""

    def take_asked(self, agent):
        """How many snapshots and deltas a program has got since the last time, and what it was refused."""
        mine = [row for row in self.asked if row[0].startswith(agent)]
        self.asked = [row for row in self.asked if row not in mine]
        files = [path.rpartition("/")[2] for _, path, code in mine if code == 200]
        refused = [f"{path}: the server answered {code}" for _, path, code in mine if code not in (200, 304)]
        return files.count("snapshot.xml"), files.count("delta.xml"), refused
