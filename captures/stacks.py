"""The stacks of the captures: with what a server and a client of each are started."""

import base64
import hashlib
import subprocess
from dataclasses import dataclass
from pathlib import Path

HERE = Path(__file__).parent
SIDES = ("client", "server")
# Their servers serve on, and are interrupted once the connection is closed.
SERVE_ON = ("ngtcp2", "curl", "firefox", "chromium")
BROWSERS = ("firefox", "chromium")
# Stacks that have a client only. Their server is ngtcp2's, whose logs are kept apart.
CLIENTS = ("curl", *BROWSERS)
# Debian's packages that have the stacks; what captures/build makes of a source leaves its version.
PACKAGES = {
    "quic-go": "golang-github-lucas-clemente-quic-go-dev",
    "ngtcp2": "ngtcp2-client",
    "openssl": "libssl-dev",
    "curl": "curl",
    "aioquic": "python3-aioquic",
    "quinn": "librust-quinn-proto-dev",
    "firefox": "firefox-esr",
    "chromium": "chromium",
}
# OpenSSL has one controller. curl has that of its library, and the browsers their own.
OWN_CONTROLLERS = {"openssl": "reno", "curl": "", "firefox": "", "chromium": ""}
# What a browser does: so many requests in a row, while it loads the page.
PAGE = """<!DOCTYPE html>
<title>captures</title>
<script>
for (let part = 0; part < {parts}; part++) {{
  const request = new XMLHttpRequest();
  request.open("{method}", "/{name}?" + part, false);
  request.send({body});
}}
</script>
"""
# Of Firefox: log, go straight to HTTP/3 with the certificate of the captures, and use no network.
PREFERENCES = """
user_pref("network.http.http3.enable_qlog", true);
user_pref("network.http.http3.alt-svc-mapping-for-testing", "localhost;h3=:{port}");
user_pref("network.http.http3.disable_when_third_party_roots_found", false);
user_pref("network.manage-offline-status", false);
user_pref("browser.shell.checkDefaultBrowser", false);
user_pref("datareporting.policy.dataSubmissionEnabled", false);
"""


def server_set(logs: Path) -> Path:
    """The folder for the server's logs, beside that of the logs of a stack with a client only."""
    return logs.with_name(f"ngtcp2-for-{logs.name}")


@dataclass(frozen=True)
class Transfer:
    """A transfer: what is moved which way, where its files lie, and its ports."""

    stack: str
    controller: str
    way: str
    size: int
    parts: int
    programs: Path
    folder: Path
    port: int

    @property
    def cert(self) -> str:
        """The server's certificate."""
        return str(self.programs / "cert.pem")

    @property
    def key(self) -> str:
        """The key of it."""
        return str(self.programs / "key.pem")

    def log(self, side: str) -> str:
        """The log of a side: a qlog, but of Chromium one of its own kind."""
        kind = "netlog" if (self.stack, side) == ("chromium", "client") else "qlog"
        folder = self.folder
        if side == "server" and self.stack in CLIENTS:
            folder = server_set(folder.parent) / folder.name
        return str(folder / f"{side}.{kind}")

    def folder_of(self, side: str) -> Path:
        """Where a stack that names its logs itself leaves that of a side."""
        return self.folder / side

    def example(self, side: str) -> str:
        """ngtcp2's program for a side: one that was built with OpenSSL, or Debian's with GnuTLS."""
        built = self.programs / f"ossl{side}"
        return str(built) if built.exists() else f"gtls{side}"


def quic_go(it: Transfer) -> tuple[list[str], list[str]]:
    """The commands of a server and a client of quic-go."""
    program = str(it.programs / f"transfer-{it.controller}")
    server = [program, "server", f"127.0.0.1:{it.port + 1}", it.cert, it.key]
    client = [program, "client", f"127.0.0.1:{it.port}", it.way, str(it.size), str(it.parts)]
    return server, client


def openssl(it: Transfer) -> tuple[list[str], list[str]]:
    """The commands of a server and a client of OpenSSL, which has NewReno alone."""
    program = str(it.programs / "transfer-openssl")
    server = [program, "server", str(it.port + 1), it.cert, it.key]
    return server, [program, "client", str(it.port), it.way, str(it.size), str(it.parts)]


def aioquic(it: Transfer) -> tuple[list[str], list[str]]:
    """The commands of a server and a client of aioquic."""
    program = ["/usr/bin/python3", str(HERE / "transfer.py")]
    server = [*program, "server", str(it.port + 1), it.log("server"), it.cert, it.key]
    client = [*program, "client", str(it.port), it.log("client"), it.way, str(it.size)]
    return [*server, it.controller], [*client, str(it.parts), it.controller]


def file_of_part(it: Transfer) -> Path:
    """A file of the size of a request."""
    size = it.size // it.parts
    file = it.folder / f"f{size}"
    file.write_bytes(bytes(size))
    return file


def options_of_ngtcp2(it: Transfer) -> list[str]:
    """What a server and a client of ngtcp2 are told alike."""
    return ["-q", f"--cc={it.controller}", "--no-quic-dump", "--no-http-dump", "--no-pmtud"]


def server_of_ngtcp2(it: Transfer) -> list[str]:
    """The command of the server that comes with ngtcp2."""
    logs = f"--qlog-dir={it.folder_of('server')}"
    files = ["-d", str(it.folder)]
    address = ["127.0.0.1", str(it.port + 1), it.key, it.cert]
    return [it.example("server"), *options_of_ngtcp2(it), logs, *files, *address]


def ngtcp2(it: Transfer) -> tuple[list[str], list[str]]:
    """The commands of the server and the client that come with ngtcp2."""
    file = file_of_part(it)
    client = [it.example("client"), *options_of_ngtcp2(it), f"--qlog-file={it.log('client')}"]
    upload = ["-d", str(file), "-m", "POST"] if it.way == "up" else []
    times = 1 if it.way == "up" else it.parts
    client += ["--exit-on-all-streams-close", *upload, "127.0.0.1", str(it.port)]
    return server_of_ngtcp2(it), [*client, *[f"https://localhost/{file.name}"] * times]


def curl(it: Transfer) -> tuple[list[str], list[str]]:
    """The commands of the server that comes with ngtcp2, and of curl."""
    file = file_of_part(it)
    client = ["curl", "-sS", "--http3-only", "-k", "--resolve", f"localhost:{it.port}:127.0.0.1"]
    upload = ["--data-binary", f"@{file}"] if it.way == "up" else []
    address = f"https://localhost:{it.port}/{file.name}"
    return server_of_ngtcp2(it), [*client, *upload, *["-o", "/dev/null", address] * it.parts]


def page(it: Transfer) -> str:
    """Writes a page that makes the requests; its name."""
    file = file_of_part(it)
    data = f"'x'.repeat({it.size // it.parts})"
    method, body = ("POST", data) if it.way == "up" else ("GET", "")
    text = PAGE.format(parts=it.parts, method=method, name=file.name, body=body)
    (it.folder / "page.html").write_text(text)
    return "page.html"


def firefox(it: Transfer) -> tuple[list[str], list[str]]:
    """The commands of ngtcp2's server and of Firefox, which ends once the page is loaded."""
    profile = it.folder_of("client") / "profile"
    profile.mkdir(parents=True)
    (profile / "user.js").write_text(PREFERENCES.format(port=it.port))
    database = ["-d", f"sql:{profile}"]
    subprocess.run(["certutil", "-N", *database, "--empty-password"], check=True)
    root = ["-n", "captures", "-t", "C,,", "-i", str(it.programs / "ca.pem")]
    subprocess.run(["certutil", "-A", *database, *root], check=True)
    client = ["firefox-esr", "--headless", "--no-remote", "--profile", str(profile)]
    client += ["--screenshot", str(profile / "page.png")]
    return server_of_ngtcp2(it), [*client, f"https://localhost:{it.port}/{page(it)}"]


def key_hash(cert: str) -> str:
    """The hash of a certificate's key, by which Chromium is told to trust it."""
    command = ["openssl", "x509", "-in", cert, "-noout", "-pubkey"]
    lines = subprocess.run(command, capture_output=True, text=True, check=True).stdout.split("\n")
    key = base64.b64decode("".join(line for line in lines if not line.startswith("-")))
    return base64.b64encode(hashlib.sha256(key).digest()).decode()


def chromium(it: Transfer) -> tuple[list[str], list[str]]:
    """The commands of ngtcp2's server and of Chromium, which ends once the page is loaded."""
    folder = it.folder_of("client")
    # The proxy has no IPv6, which `localhost` may mean.
    origin = f"127.0.0.1:{it.port}"
    client = ["chromium", "--headless", "--no-sandbox", "--disable-gpu", "--disable-dev-shm-usage"]
    client += ["--no-first-run", "--disable-background-networking", "--disable-component-update"]
    client += [f"--user-data-dir={folder / 'profile'}", f"--log-net-log={folder / 'log.netlog'}"]
    client += ["--net-log-capture-mode=Everything", f"--origin-to-force-quic-on={origin}"]
    client += [f"--ignore-certificate-errors-spki-list={key_hash(it.cert)}", "--dump-dom"]
    return server_of_ngtcp2(it), [*client, f"https://{origin}/{page(it)}"]


COMMANDS = {
    "quic-go": quic_go,
    "openssl": openssl,
    "aioquic": aioquic,
    "ngtcp2": ngtcp2,
    "curl": curl,
    "firefox": firefox,
    "chromium": chromium,
}
