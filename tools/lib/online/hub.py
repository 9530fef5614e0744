"""All pages that look on, and which of them has the controls."""

import json
import queue
import threading

from .guards import Refused

MOST_PAGES = 8
MOST_WAITING = 200  # messages for a page that doesn't read


def message(kind, data):
    return f"event: {kind}\ndata: {json.dumps(data)}\n\n".encode()


class Hub:
    def __init__(self, on_count=lambda count: None):
        self.pages, self.writer, self.lock, self.on_count = {}, None, threading.Lock(), on_count

    def enter(self, page):
        """What is to be sent to this page, as a queue."""
        with self.lock:
            if len(self.pages) >= MOST_PAGES and page not in self.pages:
                raise Refused(503, "too many pages")
            mine = self.pages[page] = queue.Queue(MOST_WAITING)
            if self.writer not in self.pages:
                self.writer = page
        self.on_count(len(self.pages))
        self.tell("writer", {"writer": self.writer})
        return mine

    def leave(self, page, mine):
        with self.lock:
            if self.pages.get(page) is mine:
                del self.pages[page]
        self.on_count(len(self.pages))

    def is_current(self, page, mine):
        return self.pages.get(page) is mine

    def take(self, page):
        with self.lock:
            if page not in self.pages:
                raise Refused(409, "no such page")
            self.writer = page
        self.tell("writer", {"writer": self.writer})

    def check_writer(self, page):
        if page != self.writer:
            raise Refused(409, "another page has the controls")

    def tell(self, kind, data):
        said = message(kind, data)
        with self.lock:
            for waiting in self.pages.values():
                try:
                    waiting.put_nowait(said)
                except queue.Full:  # it will ask again for all
                    while not waiting.empty():
                        waiting.get_nowait()
                    waiting.put_nowait(message("stale", {}))
