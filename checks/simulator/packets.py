"""A packet: its bytes, and what the text trace tells of it."""

LEAST_PAYLOAD = 46


class Item:
    """A header, a payload or padding, of which bytes may have been cut off in front and behind."""

    def __init__(self, name, size, front=0, back=0):
        self.name, self.size, self.front, self.back = name, size, front, back

    def left(self):
        return self.size - self.front - self.back

    def __str__(self):
        cuts = f"[{self.front},{self.back}]" if self.front or self.back else ""
        return f"{self.name}:{self.size}{cuts}"


class Packet:
    def __init__(self, uid, data=b"", name="payload", priority=None):
        self.uid, self.data, self.priority = uid, data, priority
        self.items = [Item(name, len(data))] if data else []

    def copy(self):
        other = Packet(self.uid, self.data, priority=self.priority)
        other.items = [Item(i.name, i.size, i.front, i.back) for i in self.items]
        return other

    def push_front(self, name, data):
        self.data = data + self.data
        if data:
            self.items.insert(0, Item(name, len(data)))
        return self

    def push_back(self, name, data):
        self.data += data
        if data:
            self.items.append(Item(name, len(data)))
        return self

    def cut(self, start, end):
        """Keeps the bytes from `start` up to `end`."""
        place, kept = 0, []
        for item in self.items:
            size = item.left()
            front, back = max(start - place, 0), max(place + size - end, 0)
            if front + back < size:
                kept.append(Item(item.name, item.size, item.front + front, item.back + back))
            place += size
        self.data, self.items = self.data[start:end], kept
        return self

    def pop_front(self, count):
        return self.cut(count, len(self.data))

    def pop_back(self, count):
        return self.cut(0, len(self.data) - count)

    def join(self, other):
        """Puts another packet's bytes behind; an item that goes on in the other is one item again."""
        self.data += other.data
        rest = [Item(i.name, i.size, i.front, i.back) for i in other.items]
        if self.items and rest:
            last, first = self.items[-1], rest[0]
            if (last.name, last.size) == (first.name, first.size) and last.size - last.back == first.front:
                last.back = first.back
                rest.pop(0)
        self.items += rest
        return self

    def text(self):
        items = "".join(f" {item}" for item in self.items)
        return f"p{self.uid[0]}.{self.uid[1]} {len(self.data)}{items}"
