"""Work beside the proofs: pieces of it, each once the crates that it needs are built."""
import threading


class Beside:
    """Calls a function for each piece of work: one after another beside the proofs, and then several side by side."""

    def __init__(self, pieces, call):
        self.left = list(pieces)
        self.call = call
        self.built = set()
        self.changed = threading.Condition()
        self.runners = []

    def next(self):
        """The first piece that is left and whose crates are built, once there is one, or None if no piece is left."""
        with self.changed:
            while self.left:
                ready = next((it for it in self.left if it[1] <= self.built), None)
                if ready:
                    self.left.remove(ready)
                    return ready[0]
                self.changed.wait()
        return None

    def run_on(self):
        """Calls the function for what is left, one piece after another."""
        while piece := self.next():
            self.call(piece)

    def start(self, count):
        """Runs this many more pieces at a time."""
        runners = [threading.Thread(target=self.run_on) for _ in range(count)]
        self.runners += runners
        for runner in runners:
            runner.start()

    def mark(self, *crates):
        """These crates are built."""
        with self.changed:
            self.built.update(crates)
            self.changed.notify_all()

    def finish(self, count):
        """Runs what is left, this many pieces at a time, since all crates are built."""
        self.mark(*(crate for _, needed in self.left for crate in needed))
        self.start(count - len(self.runners))
        for runner in self.runners:
            runner.join()

    def stop(self):
        """Begins none of what is left, and ends when what is running ends."""
        with self.changed:
            self.left.clear()
            self.changed.notify_all()
        for runner in self.runners:
            runner.join()
