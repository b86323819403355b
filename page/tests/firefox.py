"""A headless Firefox for the tests, by Marionette, the protocol that Firefox speaks itself: Debian
has no driver for it."""

import base64
import json
import shutil
import socket
import subprocess
import tempfile
import time
from pathlib import Path
from typing import Any

from tests.driven import PLACE, Driven

PROGRAM = shutil.which("firefox-esr") or shutil.which("firefox")
MISSING = "" if PROGRAM else "no firefox-esr is installed"
SECONDS = 60
# No window of Firefox is narrower than this. A size is asked for so often until it is there.
LEAST_WIDTH = 500
TRIES = 10
# What a source of input does, or a list of that.
Action = dict[str, Any]
# The buttons of a mouse by their numbers.
BUTTONS = ("left", "middle", "right")
PAUSE: Action = {"type": "pause"}
# The keys that are held while the mouse is used, by the bits that Chromium has for them.
HELD = {1: "\ue00a", 2: "\ue009", 8: "\ue008"}
# Nothing is fetched from the network, and nothing is asked of a person.
PREFERENCES = {
    "app.update.disabledForTesting": True,
    "browser.shell.checkDefaultBrowser": False,
    "browser.startup.homepage_override.mstone": "ignore",
    "browser.startup.page": 0,
    "datareporting.policy.dataSubmissionEnabled": False,
    "dom.disable_beforeunload": True,
    "network.captive-portal-service.enabled": False,
    "network.connectivity-service.enabled": False,
    # What Firefox itself asks for goes to a port that nobody listens on.
    "network.proxy.type": 1,
    "network.proxy.http": "127.0.0.1",
    "network.proxy.http_port": 1,
    "network.proxy.ssl": "127.0.0.1",
    "network.proxy.ssl_port": 1,
    "toolkit.telemetry.server": "https://localhost:1",
    "ui.prefersReducedMotion": 1,
}
# In Firefox itself, and not in a page: what it says on the console, and what is asked for.
WATCH = """
const seen = globalThis.qauditSeen ??= {requests: []};
if (!seen.observer) {
  seen.observer = {observe(channel) {
    const {URI, loadInfo} = channel.QueryInterface(Ci.nsIChannel);
    if (loadInfo.browsingContext?.isContent) seen.requests.push(URI.spec);
  }};
  for (const topic of ['http-on-opening-request', 'file-channel-opened'])
    Services.obs.addObserver(seen.observer, topic);
}
"""
SAID = """
const said = Services.console.getMessageArray().filter(it => it instanceof Ci.nsIScriptError)
  .filter(it => /^(file|about|blob|data):/.test(it.sourceName) || /^Content/.test(it.errorMessage))
  .map(it => `${it.sourceName}: ${it.errorMessage}`);
Services.console.reset();
return said;
"""
ZOOM = "gBrowser.selectedBrowser.browsingContext.top.fullZoom = arguments[0]"
DRESS = """
Services.prefs.setIntPref('layout.css.prefers-color-scheme.content-override', arguments[0]);
gBrowser.selectedBrowser.browsingContext.top.mediumOverride = arguments[1];
"""
SHOT = """
return (async ({x, y, width, height}) => {
  const drawn = await gBrowser.selectedBrowser.browsingContext.currentWindowGlobal
    .drawSnapshot(new DOMRect(x, y, width, height), 1, 'rgb(255,255,255)');
  const canvas = new OffscreenCanvas(drawn.width, drawn.height);
  canvas.getContext('2d').drawImage(drawn, 0, 0);
  const bytes = new Uint8Array(await (await canvas.convertToBlob()).arrayBuffer());
  return btoa(Array.from(bytes, it => String.fromCharCode(it)).join(''));
})(arguments[0]);
"""
REQUESTS = "const found = globalThis.qauditSeen.requests.splice(0); return found;"


class Marionette:
    """The connection to a Firefox."""

    def __init__(self, port: int) -> None:
        self.socket = connected(port)
        self.file = self.socket.makefile("rb")
        self.number = 0
        self.received()

    def received(self) -> Any:
        """The next message: its length, a colon, and JSON."""
        length = b""
        while not length.endswith(b":"):
            piece = self.file.read(1)
            if not piece:
                raise RuntimeError("Firefox has ended")
            length += piece
        return json.loads(self.file.read(int(length[:-1])))

    def ask(self, command: str, **more: Any) -> Any:
        """What a command returns."""
        self.number += 1
        data = json.dumps([0, self.number, command, more]).encode()
        self.socket.sendall(f"{len(data)}:".encode() + data)
        _, _, failure, found = self.received()
        if failure:
            raise RuntimeError(f"{command}: {failure['message']}")
        return found

    def close(self) -> None:
        """Ends the connection."""
        self.file.close()
        self.socket.close()


def connected(port: int) -> socket.socket:
    """A connection to a Firefox that is starting."""
    end = time.monotonic() + SECONDS
    while True:
        try:
            made = socket.create_connection(("127.0.0.1", port), SECONDS)
            made.settimeout(SECONDS)
            return made
        except OSError:
            if time.monotonic() > end:
                raise
            time.sleep(0.1)


def free_port() -> int:
    """A port that nobody listens on."""
    with socket.socket() as probe:
        probe.bind(("127.0.0.1", 0))
        return int(probe.getsockname()[1])


class Firefox(Driven):
    """A browser with what the tests ask of one, as `Browser` has it."""

    def __init__(self, width: int = 1200, height: int = 900, *, is_dark: bool = False) -> None:
        self.folder = tempfile.TemporaryDirectory()
        self.zoom = 1.0
        port = free_port()
        wanted = PREFERENCES | {"marionette.port": port}
        lines = (f'user_pref("{name}", {json.dumps(it)});\n' for name, it in wanted.items())
        Path(self.folder.name, "user.js").write_text("".join(lines))
        command = [str(PROGRAM), "--headless", "--marionette", "--remote-allow-system-access"]
        self.process = subprocess.Popen(
            [*command, "--no-remote", "--profile", self.folder.name],
            stdout=subprocess.DEVNULL,
            stderr=subprocess.DEVNULL,
        )
        self.marionette = Marionette(port)
        self.marionette.ask("WebDriver:NewSession", strictFileInteractability=False)
        milliseconds = SECONDS * 1000
        self.marionette.ask("WebDriver:SetTimeouts", script=milliseconds, pageLoad=milliseconds)
        self.of_firefox(WATCH)
        self.resize(width, height)
        self.dress(is_dark=is_dark)

    def of_firefox(self, script: str, *arguments: object) -> Any:
        """What a script returns that runs in Firefox itself."""
        self.marionette.ask("Marionette:SetContext", value="chrome")
        try:
            return self.run(script, *arguments, sandbox="system")
        finally:
            self.marionette.ask("Marionette:SetContext", value="content")

    def run(self, script: str, *arguments: object, sandbox: str | None = None) -> Any:
        """What a script returns."""
        wanted = {"script": script, "args": list(arguments), "newSandbox": False}
        return self.marionette.ask("WebDriver:ExecuteScript", sandbox=sandbox, **wanted)["value"]

    def run_async(self, script: str, *arguments: object) -> Any:
        """What a script hands to the function that is its last argument."""
        wanted = {"script": script, "args": list(arguments), "newSandbox": False}
        return self.marionette.ask("WebDriver:ExecuteAsyncScript", **wanted)["value"]

    def resize(self, width: int, height: int) -> None:
        """Sets the size of what the page has, in pixels of the page, which are larger ones if a
        window cannot be as narrow."""
        times = self.zoom = max(1.0, LEAST_WIDTH / width)
        self.of_firefox(ZOOM, times)
        for _ in range(TRIES):
            sizes = self.run("return [innerWidth, innerHeight, outerWidth, outerHeight]")
            if sizes[:2] == [width, height]:
                return
            wide = sizes[2] + round((width - sizes[0]) * times)
            high = sizes[3] + round((height - sizes[1]) * times)
            self.marionette.ask("WebDriver:SetWindowRect", x=0, y=0, width=wide, height=high)

    def dress(self, *, is_dark: bool, media: str = "screen") -> None:
        """Sets which colours a person prefers, and whether it is a screen or paper."""
        self.of_firefox(DRESS, 0 if is_dark else 1, "" if media == "screen" else media)

    def get(self, address: str) -> None:
        """Opens an address, in the size that was set."""
        self.marionette.ask("WebDriver:Navigate", url=address)
        if self.zoom != 1:
            self.of_firefox(ZOOM, self.zoom)

    def wait(self, condition: str) -> None:
        """Waits until a script returns true."""
        end = time.monotonic() + SECONDS
        while not self.run(condition):
            if time.monotonic() > end:
                raise TimeoutError(condition)
            time.sleep(0.02)

    def messages(self) -> list[str]:
        """What stands on the console since this was last asked."""
        found: list[str] = self.of_firefox(SAID)
        return found

    def requests(self) -> list[str]:
        """The addresses that were asked for since this was last asked."""
        found: list[str] = self.of_firefox(REQUESTS)
        return found

    def mouse(self, kind: str, x: float, y: float, **more: Any) -> None:
        """An event of the mouse, as Chromium names them."""
        held = more.get("modifiers", 0)
        move: Action = {"type": "pointerMove", "x": round(x), "y": round(y), "duration": 0}
        if kind == "mouseWheel":
            deltas = {name: round(more.get(name, 0)) for name in ("deltaX", "deltaY")}
            self.act(wheel([{**move, "type": "scroll", **deltas}]), held)
            return
        # Where it was before, the mouse would not be moved, though a page may have scrolled.
        acts = [{**move, "x": move["x"] + 1}, move] if kind == "mouseMoved" else [move]
        button = BUTTONS.index(more["button"]) if more.get("button") in BUTTONS else 0
        down, up = ({"type": f"pointer{it}", "button": button} for it in ("Down", "Up"))
        if kind == "mousePressed":
            acts += [down, up] * (more.get("clickCount", 1) - 1) + [down]
        elif kind == "mouseReleased":
            acts.append(up)
        self.act(pointer("mouse", "mouse", acts), held)

    def act(self, source: Action, modifiers: int) -> None:
        """Does what a source of input does while keys are held."""
        keys = [key for bit, key in HELD.items() if modifiers & bit]
        downs, ups = (
            [{"type": what, "value": key} for key in keys] for what in ("keyDown", "keyUp")
        )
        acts = source["actions"]
        held = [*downs, *[PAUSE] * len(acts), *ups]
        source = {**source, "actions": [*[PAUSE] * len(keys), *acts, *[PAUSE] * len(keys)]}
        actions = [{"type": "key", "id": "keys", "actions": held}, source] if keys else [source]
        self.marionette.ask("WebDriver:PerformActions", actions=actions)

    def touch(self, kind: str, *points: tuple[float, float]) -> None:
        """Fingers are put down, moved or lifted, each by its place in the list."""
        if kind == "touchEnd":
            self.marionette.ask("WebDriver:ReleaseActions")
            return
        sources = []
        for place, (x, y) in enumerate(points):
            acts: list[Action] = [
                {"type": "pointerMove", "x": round(x), "y": round(y), "duration": 0}
            ]
            if kind == "touchStart":
                acts.append({"type": "pointerDown", "button": 0})
            sources.append(pointer(f"finger {place}", "touch", acts))
        self.marionette.ask("WebDriver:PerformActions", actions=sources)

    def shot(self, clip: dict[str, float] | None = None) -> bytes:
        """A picture of a part of the page, in pixels from its top left."""
        seen = "return {x: scrollX, y: scrollY, width: innerWidth, height: innerHeight}"
        return base64.b64decode(self.of_firefox(SHOT, clip or self.run(seen)))

    def picture(self, file: Path, *, is_whole: bool = True, part: str = "") -> None:
        """Keeps a picture of the page, or of a part of it, by a selector."""
        if part:
            clip = self.run(PLACE, part)
        else:
            whole = "return {x: 0, y: 0, width: innerWidth, height: document.body.scrollHeight}"
            clip = self.run(whole) if is_whole else None
        file.write_bytes(self.shot(clip))

    def close(self) -> None:
        """Ends the browser."""
        try:
            self.marionette.ask("Marionette:Quit", flags=["eForceQuit"])
        except RuntimeError:
            pass
        self.marionette.close()
        try:
            self.process.wait(SECONDS)
        except subprocess.TimeoutExpired:
            self.process.kill()
            self.process.wait()
        self.folder.cleanup()


def pointer(name: str, kind: str, actions: list[Action]) -> Action:
    """What a mouse or a finger does."""
    return {
        "type": "pointer",
        "id": name,
        "parameters": {"pointerType": kind},
        "actions": actions,
    }


def wheel(actions: list[Action]) -> Action:
    """What a wheel does."""
    return {"type": "wheel", "id": "wheel", "actions": actions}
