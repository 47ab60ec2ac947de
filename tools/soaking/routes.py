"""To which processes paths lead a signal, as LANGUAGE.md says it of channels, connects and implied channels."""

from dataclasses import dataclass

from soaking.specification import ENVIRONMENT, Channel, Connect, Process, Scope, signals_of


@dataclass(eq=False)
class Way:
    """A path of a channel in its scope, or an implied one, which has no channel."""

    scope: Scope
    channel: object
    start: object
    end: object
    signals: object = None

    def carries(self, signal):
        if self.channel is not None:
            return signal in self.signals
        return not isinstance(self.end, Process) or signal in self.end.named()


def ways_in(scope):
    """All ways in a scope: those of its channels, or implied ones where it has none."""
    channels = scope.all_of(Channel)
    if channels:
        return [
            Way(scope, channel, path.start, path.end, set(signals_of(path.items)))
            for channel in channels
            for path in channel.paths
        ]
    points = [ENVIRONMENT, *scope.all_of(Process), *scope.all_of(Scope)]
    return [Way(scope, None, start, end) for start in points for end in points if start is not end]


def joined(block, outer, inner):
    """Whether a way outside of a block and one in it are joined at its border."""
    connects = [it for it in block.all_of(Connect) if inner.channel in it.inner]
    if inner.channel is None or not connects:
        return True
    return any(outer.channel in it.outer for it in connects)


class Routes:
    """The receivers of signals by their senders; the environment sends where none is named."""

    def __init__(self, system):
        self.system = system
        self.ways = {scope: ways_in(scope) for scope in [system, *system.all_of(Scope)]}
        self.order = system.processes()
        self.known = {}

    def onward(self, way):
        """The ways that go on at the end of a way over a border."""
        if isinstance(way.end, Scope):
            return [it for it in self.ways[way.end] if it.start is ENVIRONMENT and joined(way.end, way, it)]
        if way.end is ENVIRONMENT and way.scope is not self.system:
            return [it for it in self.ways[self.system] if it.start is way.scope and joined(way.scope, it, way)]
        return []

    def of(self, sender, signal):
        """The processes to which paths lead, in the order of the text, and whether one leads to the environment."""
        if (sender, signal) not in self.known:
            self.known[sender, signal] = self.found(sender, signal)
        return self.known[sender, signal]

    def found(self, sender, signal):
        scope = self.system if sender is ENVIRONMENT else sender.around
        waiting = [way for way in self.ways[scope] if way.start is sender and way.carries(signal)]
        seen = set(waiting)
        while waiting:
            more = [way for way in self.onward(waiting.pop()) if way.carries(signal) and way not in seen]
            seen.update(more)
            waiting += more
        ends = {way.end for way in seen}
        outside = any(way.end is ENVIRONMENT and way.scope is self.system for way in seen)
        return [process for process in self.order if process in ends], outside

    def leads(self, sender, signal):
        processes, outside = self.of(sender, signal)
        return bool(processes) or outside
