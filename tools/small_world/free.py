"""Replicas that run by themselves at an instant, each for so many turns. In which order their turns come nothing settles; what a
turn is, is settled by what its replica saw directly after its turn before, or as the part began."""
import random

# A follower or a candidate stands for leader in one of so many turns, each replica in another one.
CYCLE = 64
# How many turns of a replica come one after another, on the whole, where the order is drawn.
SPURTS = (1, 1, 2, 5, 30)


class FreePart:
    """The part of a command `free`: how many turns each replica that runs has had, and what its next one is."""

    def __init__(self, world, at, turns):
        self.world = world
        self.at = at
        self.turns = turns
        self.taken = {who: 0 for who in world.members if world.runs[who]}
        self.next = {who: self.look(who) for who in self.taken}

    def look(self, who):
        """What the next turn of a replica is, as the world stands."""
        world = self.world
        if world.waits[who]:
            return "answer", None
        if world.mails[who]:
            return "hear", world.mails[who][0]
        if self.taken[who] % CYCLE == 8 * who and not world.replicas[who].leads():
            return "campaign", None
        return "tick", world.clock(who, self.at)

    def left(self):
        """The replicas that have turns left. One whose disk has stopped has none."""
        return [who for who, taken in self.taken.items() if taken < self.turns and self.world.runs[who]]

    def take(self, who):
        """The next turn of a replica. Its letters join the mails at once."""
        first = len(self.world.letters)
        self.world.take(who, *self.next[who])
        self.world.deliver(first)
        if who == 0:
            self.world.show()
        self.taken[who] += 1
        self.next[who] = self.look(who)

    def reason(self, who):
        """Why the next turn of a replica is what it is."""
        word, letter = self.next[who]
        when = "directly after its turn before" if self.taken[who] else "as the part began"
        if word == "hear":
            return f"letter {letter} was the first that waited for replica {who} {when}"
        told = "the scheduler's answer waited" if word == "answer" else "no letter and no answer waited"
        return f"{told} for replica {who} {when}"


class Order:
    """An order of turns that is drawn from a seed: of each part the replicas go on for shorter or longer spurts."""

    def __init__(self, seed):
        self.chance = random.Random(seed)
        self.spurt = 1
        self.last = None

    def begin(self):
        self.spurt = self.chance.choice(SPURTS)

    def whose(self, part):
        """The replica whose turn comes next."""
        left = part.left()
        if self.last not in left or self.chance.randrange(self.spurt) == 0:
            self.last = self.chance.choice(left)
        return self.last
