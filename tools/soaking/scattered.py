"""A run whose order is drawn by lot, as the schedule of threads would have it.

Between two moves of the clock the instances step in any order, and what a step has sent arrives while others step. So
the judge of reports can be tried without threads."""

from random import Random

from soaking.reference import Cut, Instance, Run

MOST_MORE = 3


class Scattered(Run):
    def __init__(self, system, routes, script, limit: int, lot: Random):
        super().__init__(system, routes, script, limit)
        self.lot = lot
        self.more = lot.randint(0, MOST_MORE)

    def come_to_rest(self) -> None:
        """Steps, until nothing happens any more: all rest, and nothing is on its way."""
        resting: set[Instance] = set()
        while len(resting) < len(self.instances):
            instance = self.lot.choice([it for it in self.instances if it not in resting])
            if instance.acts or self.step(instance):
                self.arrive(instance)
                resting.clear()
            else:
                resting.add(instance)
            # On threads some transitions may come after the one that reaches the limit.
            if self.made >= self.limit and (resting or self.made >= self.limit + self.more):
                raise Cut

    def step(self, instance: Instance) -> bool:
        """A step of an instance; whether anything happened."""
        instance.run = self
        happened, counts = instance.step()
        self.made += counts
        return happened

    def living(self, process, created=()) -> list[Instance]:
        """An instance that has ended is found until all that it sent has come."""
        return [it for it in [*self.instances, *created] if (it.lives or it.acts) and it.process is process]

    def arrive(self, instance: Instance) -> None:
        """A part of what a step did comes to others: all up to the last instance that it made, or one signal."""
        adds = [turn for turn, act in enumerate(instance.acts, 1) if act[0] == "add"]
        number = max(adds, default=1)
        instance.created = []
        for act in instance.acts[:number]:
            self.act_one(*act)
        del instance.acts[:number]
