"""How many processors a proof gets: as many as make all of them end first, by what each took when it was measured last."""

# How many times as fast a proof is with so many jobs.
FASTER = {1: 1, 2: 1.65, 3: 2.05, 4: 2.35}


class Plan:
    """Proofs, lowest first: the seconds of each with one job, and those that it waits for."""

    def __init__(self, seconds, below, processors):
        self.seconds, self.below, self.processors, self.chain = seconds, below, processors, {}
        for name in reversed(seconds):
            above = [self.chain[other] for other in self.chain if name in below[other]]
            self.chain[name] = seconds[name] + max(above, default=0)

    def ready(self, left, ended):
        """Those that wait for nothing any more, first those that the longest chain waits for."""
        return sorted((name for name in left if ended.issuperset(self.below[name])), key=lambda name: -self.chain[name])

    def took(self, name, jobs):
        return self.seconds[name] / FASTER[jobs]

    def rule(self, name, others, idle, left):
        """Those that no other one waits for, and two where the chain takes longer than all that is left, side by side."""
        spare = idle // (others + 1)
        if self.chain[name] > sum(self.seconds[other] for other in left) / self.processors:
            spare = max(spare, min(2, idle))
        return max(1, min(max(FASTER), spare))

    def ends(self, left, ended, begun, first):
        """When all have ended where the first one begins with so many jobs, and the others by the rule; `begun` has what runs, each with its
        end and its jobs, and time begins now."""
        left, ended, begun, now = set(left), set(ended), dict(begun), 0
        given = dict([first])
        while left or begun:
            ready = self.ready(left, ended)
            for at, name in enumerate(ready):
                idle = self.processors - sum(jobs for _, jobs in begun.values())
                if idle < 1:
                    break
                jobs = given.pop(name, None) or self.rule(name, len(ready) - at - 1, idle, left)
                left.discard(name)
                begun[name] = now + self.took(name, jobs), jobs
            name = min(begun, key=lambda name: begun[name][0])
            now = max(now, begun.pop(name)[0])
            ended.add(name)
        return now

    def jobs(self, name, left, ended, begun):
        """The jobs by which all end first, and the fewest of these; at least one."""
        idle = self.processors - sum(jobs for _, jobs in begun.values())
        return min(range(1, min(max(FASTER), idle) + 1), key=lambda jobs: (self.ends(left, ended, begun, (name, jobs)), jobs))
