"""Diagnostics: a buffer that has rested is checked, and what a newer change made old goes unsaid."""
import threading
import time
from concurrent.futures import Future
from typing import Any, Callable

from serving.buffers import Buffer

REST = 0.3

Found = list[dict[str, Any]]
Finder = Callable[[Buffer, Callable[[], bool]], Found]


class Diagnosing:
    """A thread that looks at each buffer once it has rested.

    `finders` are asked side by side; each answers diagnostics, and may give up where the function that it is handed says that
    a newer change came. What they found is said in their order, behind each of them with all that was found before.
    """

    def __init__(self, say: Callable[[Buffer, Found], None], finders: list[Finder], rest: float = REST):
        self.say = say
        self.finders = finders
        self.rest = rest
        self.waiting: dict[str, tuple[float, Buffer]] = {}
        self.newest: dict[str, Buffer] = {}
        self.is_over = False
        self.turn = threading.Condition()
        self.thread = threading.Thread(target=self.run, daemon=True)
        self.thread.start()

    def changed(self, buffer: Buffer) -> None:
        """This is now the newest text of its file."""
        with self.turn:
            self.newest[buffer.uri] = buffer
            self.waiting[buffer.uri] = (time.monotonic() + self.rest, buffer)
            self.turn.notify()

    def closed(self, uri: str) -> None:
        """Nothing more is to be said of this file."""
        with self.turn:
            self.newest.pop(uri, None)
            self.waiting.pop(uri, None)

    def stop(self) -> None:
        """Ends the thread."""
        with self.turn:
            self.is_over = True
            self.turn.notify()

    def is_old(self, buffer: Buffer) -> bool:
        """Whether a newer change has come."""
        return self.newest.get(buffer.uri) is not buffer

    def next_buffer(self) -> Buffer | None:
        """Waits for a buffer that has rested; None where it's over."""
        with self.turn:
            while not self.is_over:
                now = time.monotonic()
                uri = min(self.waiting, key=lambda one: self.waiting[one][0], default=None)
                if uri is None:
                    self.turn.wait()
                elif self.waiting[uri][0] <= now:
                    return self.waiting.pop(uri)[1]
                else:
                    self.turn.wait(self.waiting[uri][0] - now)
        return None

    def begun(self, finder: Finder, buffer: Buffer) -> Future[Found]:
        """What a finder answers, which is asked in a thread of its own."""
        answer: Future[Found] = Future()

        def ask() -> None:
            try:
                answer.set_result(finder(buffer, lambda: self.is_old(buffer)))
            except BaseException as fault:
                answer.set_exception(fault)

        threading.Thread(target=ask, daemon=True).start()
        return answer

    def look(self, buffer: Buffer) -> None:
        """Finds and says what there is to say of a buffer."""
        found: Found = []
        for answer in [self.begun(finder, buffer) for finder in self.finders]:
            found = found + answer.result()
            if self.is_old(buffer):
                return
            self.say(buffer, found)

    def run(self) -> None:
        """The thread's work."""
        while buffer := self.next_buffer():
            self.look(buffer)
