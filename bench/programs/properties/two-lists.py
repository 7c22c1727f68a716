class Mapping:
    def get(self, key):
        if key in self.keys:
            return self.values[self.keys.index(key)]
        return 0

    def set(self, key, value):
        if key in self.keys:
            self.values[self.keys.index(key)] = value
        else:
            self.keys.append(key)
            self.values.append(value)


mapping = Mapping()


def run(n):
    m = mapping
    m.keys = []
    m.values = []
    names = ["gold", "silver", "copper", "iron", "tin"]
    for i in range(1, n + 1):
        name = names[i % 5]
        m.set(name, m.get(name) + i)
    return m.get("tin")
