"""Serves dist/web, as any static host does, and beside it what the tests need: /test/ is this folder, /page/ web/page, /calls.bin holds packed calls."""

import functools
import http.server
import threading
import time

from repository import SITE, TEST


class Handler(http.server.SimpleHTTPRequestHandler):
    """Serves files over connections that are kept, and says nothing."""

    protocol_version = "HTTP/1.1"

    def translate_path(self, path):
        name = path.split("?")[0].split("#")[0]
        if name == self.late:
            time.sleep(1)
        for folder in (TEST, TEST.parent / "page"):
            if name.startswith(f"/{folder.name}/"):
                return str(folder / name.removeprefix(f"/{folder.name}/"))
        return str(self.calls) if name == "/calls.bin" else super().translate_path(path)

    def log_message(self, *_):
        pass


def serve(calls, site=SITE, late=None):
    """Serves a site until the program ends, and returns its address. `calls` is the path of /calls.bin; the file `late` comes a second later."""
    handler = type("HandlerOfCalls", (Handler,), {"calls": calls, "late": late})
    server = http.server.ThreadingHTTPServer(("127.0.0.1", 0), functools.partial(handler, directory=str(site)))
    threading.Thread(target=server.serve_forever, daemon=True).start()
    return f"http://127.0.0.1:{server.server_address[1]}"
