"""A vector or a text of a script: a list, the spare slots after it, and on the heap a capacity."""
import math

# How much room a full list gets that is to have room for `need`, of the room before and whether it was inline.
DOUBLES = lambda room, need, was_inline: max(2 * room, need)
FOR = lambda room, need, was_inline: need if was_inline else max(2 * room, need)


class Vector:
    """An empty one, inline or in its slots. A call returns what it answers, or None, with nothing changed, where its condition does
    not hold or memory is refused."""

    def __init__(self, kind, slots):
        self.kind, self.slots = kind, slots
        self.list, self.spare, self.is_inline, self.on_heap = [], [0] * slots, True, 0
        # How many requests a call has made, and how many more are granted.
        self.asked, self.granted = 0, math.inf

    def capacity(self):
        return self.slots if self.is_inline else self.on_heap

    def asks(self, is_needed=True):
        """Makes a request, if one is needed, and returns whether it is granted."""
        self.asked += is_needed
        return self.asked <= self.granted

    def makes_room(self, need, rule=FOR):
        """Whether there is room for so many items, once a call that needs it has grown as it does."""
        if need <= self.capacity():
            return True
        if self.kind != "TinyVec" or not self.asks():
            return False
        self.on_heap, self.is_inline, self.spare = rule(self.capacity(), need, self.is_inline), False, []
        return True

    def becomes(self, items):
        """The list is this now, in the same place. Emptied slots hold defaults, and new items use up spare slots."""
        longer = len(items) - len(self.list)
        if self.is_inline:
            self.spare = self.spare[longer:] if longer > 0 else [0] * -longer + self.spare
        self.list = items
        return ""

    def pushes(self, items, after):
        """Appends items one by one before others, and returns those that find no room."""
        need = len(self.list) + len(items) + len(after)
        while need > self.capacity() and self.makes_room(self.capacity() + 1, DOUBLES):
            pass
        fits = self.capacity() - len(self.list) - len(after)
        self.becomes([*self.list, *items[:fits], *after])
        return items[fits:]

    def put(self, i, x):
        return self.becomes([*self.list[:i], x, *self.list[i:]]) if self.makes_room(len(self.list) + 1, DOUBLES) else None

    def cut_out(self, start, end):
        """Removes a range, and returns its items."""
        items = self.list[start:end]
        self.becomes(self.list[:start] + self.list[end:])
        return items

    def move_to_the_heap(self):
        """A list that moves gets just the room for its items."""
        if not self.is_inline:
            return ""
        if self.asks(len(self.list) > 0):
            self.is_inline, self.spare, self.on_heap = False, [], len(self.list)
            return ""

    def shrink(self):
        """A list on the heap moves into the array if it fits."""
        if not self.is_inline:
            self.is_inline, self.on_heap = len(self.list) <= self.slots, len(self.list)
            self.spare = [0] * (self.slots - len(self.list)) if self.is_inline else []
        return ""

    def with_len(self, n):
        """The first `n` slots are the list."""
        slots = self.list + self.spare
        if n <= len(slots):
            self.list, self.spare = slots[:n], slots[n:]
            return ""


class Text(Vector):
    def __init__(self, slots):
        super().__init__("TinyVec", slots)

    def boundaries(self):
        """The places between characters, in bytes."""
        return [i for i in range(len(self.list)) if self.list[i] & 0xC0 != 0x80] + [len(self.list)]

    def adds(self, text):
        new = self.list + list(text.encode())
        return self.becomes(new) if self.makes_room(len(new)) else None


def listed(items):
    return f"[{', '.join(map(str, items))}]"
