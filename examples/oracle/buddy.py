"""A buddy allocator with a list of single frames for each processor.

Blocks of 2^order frames are split when they are taken, and join with their buddies when they are
freed. Single frames go through the list of the processor that asks.
"""


class Buddy:
    """The free blocks of a memory of `areas` areas, each of 2^top frames.

    With `is_faulty` a block that is freed joins with one buddy, and does not look further.
    """

    def __init__(self, areas, top, is_faulty=False):
        self.top, self.is_faulty = top, is_faulty
        self.frames = areas << top
        self.untouched = [area << top for area in range(areas)]
        self.free = [[] for _ in range(top + 1)]

    def take(self, order, may_claim=True):
        """Takes a block, from a new area only if it may and must. Returns None if there is none."""
        at = next((n for n in range(order, self.top + 1) if self.free[n]), None)
        if at is not None:
            block = self.free[at].pop(0)
        elif may_claim and self.untouched:
            at, block = self.top, self.untouched.pop(0)
        else:
            return None
        while at > order:
            at -= 1
            self.free[at].insert(0, block + (1 << at))
        return block

    def give(self, block, order):
        """Gives a block back, which joins with its buddy as long as that is free."""
        while order < self.top:
            buddy = block ^ (1 << order)
            if buddy not in self.free[order]:
                break
            self.free[order].remove(buddy)
            block, order = min(block, buddy), order + 1
            if self.is_faulty:
                break
        self.free[order].insert(0, block)


class Allocator:
    """Kernel memory: takes and gives blocks for processors, and replies in words."""

    def __init__(self, layout, is_faulty=False):
        self.batch, self.high = layout["batch"], layout["high"]
        self.buddy = Buddy(layout["blocks"], layout["order"], is_faulty)
        self.lists = [[] for _ in range(layout["cpus"])]
        self.taken = {}

    def call(self, line):
        """Makes the call of a line, such as `0 kalloc 2`, and returns its reply."""
        cpu, verb, number = line.split()
        act = {"kalloc": self.kalloc, "kfree": self.kfree, "drain": self.drain}[verb]
        return act(int(cpu), int(number))

    def kalloc(self, cpu, order):
        if order > self.buddy.top:
            return "refused BadOrder"
        frame = self.buddy.take(order) if order else self.take_single(cpu)
        if frame is None:
            return "refused NoFrame"
        self.taken[frame] = order
        return f"frame {frame}"

    def take_single(self, cpu):
        frames = self.lists[cpu]
        if not frames:
            refill = (self.buddy.take(0, may_claim=False) for _ in range(self.batch))
            frames.extend(frame for frame in refill if frame is not None)
        return frames.pop(0) if frames else self.buddy.take(0)

    def kfree(self, cpu, frame):
        if frame >= self.buddy.frames:
            return "refused NoSuchFrame"
        if frame not in self.taken:
            return "refused NotKernel"
        order = self.taken.pop(frame)
        if order:
            self.buddy.give(frame, order)
        else:
            self.give_single(cpu, frame)
        return "done"

    def give_single(self, cpu, frame):
        frames = self.lists[cpu]
        frames.insert(0, frame)
        if len(frames) > self.high:
            for _ in range(self.batch):
                self.buddy.give(frames.pop(), 0)

    def drain(self, _cpu, of):
        if of >= len(self.lists):
            return "refused NoCpu"
        while self.lists[of]:
            self.buddy.give(self.lists[of].pop(0), 0)
        return "done"
