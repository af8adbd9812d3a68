"""A plain model of a table's alarms, by docs/PROTOCOL.md: what each good line of a desk is answered.

It has no table of states: an alarm has a condition, is unacknowledged or not, and asks for the operator or not. Its
word follows from these.
"""

# The worked table: kinds, setpoints, deadbands, priorities, areas, longest shelvings, latching and tags.
TABLE = [
    ("HIGH", 800, 10, 1, 0, 3600, "OFF", "TI-101"),
    ("LOW", 100, 5, 2, 0, 3600, "OFF", "PI-102"),
    ("DISCRETE", 1, 0, 1, 1, 0, "ON", "XS-201"),
    ("HIGH", 50, 0, 3, 1, 0, "OFF", "LI-202"),
]
AREAS = 2
# How many accepted actions are remembered, and how many of them a reply to SINCE tells.
REMEMBERED, TOLD = 65_536, 256


class Alarm:
    """An alarm: attributes, condition, flags, and whether it is unacknowledged and asks for the operator."""

    def __init__(self, kind, setpoint, deadband, priority, area, longest, latching, tag):
        self.kind, self.setpoint, self.deadband, self.priority, self.area = kind, setpoint, deadband, priority, area
        self.longest, self.latching, self.tag = longest, latching == "ON", tag
        self.active = self.unacknowledged = self.asks = self.by_design = self.out_of_service = False
        self.until, self.order, self.moments = None, 0, []

    def suppressed(self):
        return self.until is not None or self.by_design or self.out_of_service

    def condition(self, value):
        """Whether the condition holds after a value."""
        if self.kind == "DISCRETE":
            return value == self.setpoint
        beyond = value - self.setpoint if self.kind == "HIGH" else self.setpoint - value
        return beyond >= 0 or (self.active and beyond >= -self.deadband)

    def word(self):
        if self.suppressed():
            return "OOSRV" if self.out_of_service else "DSUPR" if self.by_design else "SHLVD"
        if not self.asks:
            return "NORM"
        if self.active:
            return "UNACK" if self.unacknowledged else "ACKED"
        if self.latching:
            return "LATUN" if self.unacknowledged else "LATAK"
        return "RTNUN"

    def attributes(self):
        latching = "ON" if self.latching else "OFF"
        return [self.kind, self.setpoint, self.deadband, self.priority, self.area, self.longest, latching, self.tag]


class Plant:
    """The plant of a table, from its first line on; of the worked one where none is given."""

    def __init__(self, table=TABLE, areas=AREAS):
        self.now, self.count, self.orders, self.areas = 0, 0, 0, areas
        self.alarms = [Alarm(*attributes) for attributes in table]
        self.flooded, self.annunciated = [False] * areas, [[] for _ in range(areas)]
        self.begin()

    def begin(self):
        """A program opens the plant: of the actions before it nothing is remembered. Each later one has an entry: the
        moment behind it, the slot that asked, and the words."""
        self.opened, self.entries = self.count, []

    def answer(self, words, slot):
        """What a good line of a slot is answered which may ask it, and whose alarm or list there is."""
        word, numbers = words[0], [int(field) for field in words[1:] if field.lstrip("-").isdigit()]
        if word == "SINCE":
            return self.since(*numbers)
        query = getattr(self, f"look_{word.lower()}", None)
        if query is not None:
            return " ".join(str(field) for field in [word, self.count, *query(words, numbers)])
        alarm = self.alarms[numbers[0]] if word != "CLOCK" else None
        refusal = self.refusal(word, words[-1] == "ON", alarm, numbers[-1])
        if refusal:
            return f"NO {refusal}"
        if word == "ACK" and numbers[1:] not in ([], [alarm.order]):
            return "NO 22"
        self.count += 1
        self.act(word, words[-1] == "ON", alarm, numbers[-1])
        self.settle()
        self.entries.append([self.now, slot, *(words[:2] if word == "ACK" else words)])
        return f"OK {self.count}"

    def since(self, after=None):
        """What a look at the actions after a number is answered; without one, at all that are remembered."""
        oldest = max(self.opened, self.count - REMEMBERED)
        after = oldest if after is None else after
        if after < oldest:
            return "NO 21"
        told = self.entries[after - self.opened :][:TOLD]
        fields = [self.count, after + 1, len(told), *(field for entry in told for field in entry)]
        return " ".join(["SINCE", *map(str, fields)])

    def refusal(self, word, on, alarm, number):
        """The number of the refusal, or 0."""
        if word == "SHELVE" and alarm.until is not None:
            return 4
        if word == "PRIO" and number not in range(1, 5):
            return 19
        if word in ("OOS", "DESIGN"):
            already = alarm.out_of_service if word == "OOS" else alarm.by_design
            return 0 if already != on else 7 if on else 8
        taken, refusal = {
            "CLOCK": lambda: (number > self.now, 10),
            "VAL": lambda: (alarm.condition(number) != alarm.active, 9),
            "ACK": lambda: (alarm.unacknowledged, 2),
            "RESET": lambda: (alarm.asks and not alarm.active and not alarm.unacknowledged, 3),
            "SHELVE": lambda: (1 <= number <= alarm.longest, 6),
            "UNSHELVE": lambda: (alarm.until is not None, 5),
            "PRIO": lambda: (number != alarm.priority, 20),
            "SETP": lambda: (number != alarm.setpoint, 20),
        }[word]()
        return 0 if taken else refusal

    def act(self, word, on, alarm, number):
        if word == "CLOCK":
            self.now = number
            due = [ended for ended in self.alarms if ended.until is not None and ended.until <= number]
            for ended in sorted(due, key=lambda each: (each.until, self.alarms.index(each))):
                ended.until = None
                self.freed(ended)
        elif word == "VAL":
            self.follow(alarm, alarm.condition(number))
        elif word == "ACK":
            alarm.unacknowledged, alarm.asks = False, alarm.active or alarm.latching
        elif word == "RESET":
            alarm.asks = False
        elif word == "PRIO":
            alarm.priority = number
        elif word == "SETP":
            alarm.setpoint = number
        else:
            self.flag(word, on, alarm, number)

    def flag(self, word, on, alarm, number):
        if word == "SHELVE":
            alarm.until, alarm.order = self.now + number, self.next_order()
        elif word == "UNSHELVE":
            alarm.until = None
        elif word == "OOS":
            alarm.out_of_service = on
        else:
            alarm.by_design = on
        self.freed(alarm)

    def follow(self, alarm, active):
        alarm.active = active
        if alarm.suppressed():
            return
        if active:
            self.annunciate(alarm)
        else:
            alarm.asks = alarm.unacknowledged or alarm.latching

    def freed(self, alarm):
        """An alarm whose flags have changed: none is left, or it asks for nobody."""
        alarm.unacknowledged = alarm.asks = False
        if alarm.active and not alarm.suppressed():
            self.annunciate(alarm)

    def next_order(self):
        self.orders += 1
        return self.orders

    def annunciate(self, alarm):
        alarm.unacknowledged = alarm.asks = True
        alarm.order = self.next_order()
        alarm.moments = [*alarm.moments[-2:], self.now]
        self.annunciated[alarm.area].append(self.now)

    def settle(self):
        for area in range(self.areas):
            self.annunciated[area] = [moment for moment in self.annunciated[area] if self.now < moment + 600]
            window = len(self.annunciated[area])
            self.flooded[area] = window > 10 or (self.flooded[area] and window >= 5)

    def numbers(self, test, by_order):
        """The length of a list and its alarms, by their order or by number."""
        found = [number for number, alarm in enumerate(self.alarms) if test(alarm)]
        return [len(found), *(sorted(found, key=lambda number: self.alarms[number].order) if by_order else found)]

    def look_state(self, _words, numbers):
        alarm = self.alarms[numbers[0]]
        letters = "O" * alarm.out_of_service + "D" * alarm.by_design + "S" * (alarm.until is not None)
        return [alarm.word(), int(alarm.active), letters or "-", "-" if alarm.until is None else alarm.until]

    def look_list(self, words, numbers):
        number = numbers[-1]
        return self.numbers(
            {
                "P": lambda alarm: alarm.asks and alarm.priority == number,
                "A": lambda alarm: alarm.asks and alarm.area == number,
                "S": lambda alarm: alarm.until is not None and alarm.until % 256 == number,
            }[words[1]],
            True,
        )

    def look_stale(self, _words, _numbers):
        return self.numbers(lambda alarm: alarm.asks and alarm.moments[-1] + 86_400 <= self.now, False)

    def look_chatter(self, _words, _numbers):
        return self.numbers(lambda alarm: sum(self.now < moment + 60 for moment in alarm.moments) >= 3, False)

    def look_flood(self, _words, numbers):
        return [len(self.annunciated[numbers[0]]), int(self.flooded[numbers[0]])]

    def look_plant(self, _words, _numbers):
        return [self.now, len(self.alarms), self.areas]

    def look_attr(self, _words, numbers):
        return self.alarms[numbers[0]].attributes()

    def look_row(self, words, numbers):
        alarm = self.alarms[numbers[0]]
        stamp = alarm.order if alarm.asks or alarm.until is not None else 0
        limits = [stamp, alarm.priority, alarm.setpoint]
        return [*self.look_state(words, numbers), *limits, len(alarm.moments), *reversed(alarm.moments)]
