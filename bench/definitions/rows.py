"""Functions whose values are kept: by the number below, or by all arguments."""


class Rows:
    """A function of a number that goes by its value at the one below it, whose latest value is kept for the latest
    other arguments. A value that is the one below it is that of every number above."""

    def __init__(self, function):
        self.function, self.known = function, {}

    def __call__(self, *arguments):
        *others, n = arguments
        key = tuple(map(id, others))
        if key not in self.known:
            if len(self.known) > 7:
                self.known.clear()
            self.known[key] = others, []
        latest = self.known[key][1]
        if not latest or latest[0] > n:
            latest[:] = 0, self.function(*others, 0), False
        while latest[0] < n and not latest[2]:
            value = self.function(*others, latest[0] + 1)
            latest[:] = latest[0] + 1, value, value is latest[1]
        return latest[1]

    def cache_clear(self):
        self.known.clear()


class Kept:
    """A function whose values are kept by its arguments, with the lines that were run for each: whoever asks again has
    run them too. `run` is what notes the lines."""

    MOST = 1 << 15

    def __init__(self, function, run):
        self.function, self.run, self.known = function, run, {}

    def __call__(self, *arguments):
        if arguments not in self.known:
            if len(self.known) >= self.MOST:
                self.known.clear()
            self.known[arguments] = self.run.within(self.function, arguments)
        value, lines = self.known[arguments]
        self.run.seen |= lines
        return value

    def cache_clear(self):
        self.known.clear()
