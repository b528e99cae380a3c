"""The order of the commands of a unit (SAM-5 section 8)."""


class TaskSets:
    """The commands that entered the task sets of the units (SAM-5, 8)."""

    def __init__(self, say):
        self.say = say
        self.tasks = {}  # by their tickets
        self.lives = {}  # by unit: all that are live, the ORDERED and the HEAD OF QUEUE ones, each in order

    def of(self, unit):
        return self.lives.setdefault(unit, ({}, {}, {}))

    def live(self):
        return [task for everything, _, _ in self.lives.values() for task in everything.values()]

    def lists(self, task):
        everything, ordered, heads = self.of(task.unit)
        return [everything] + [ordered] * (task.attribute == "ordered") + [heads] * (task.attribute == "head")

    def enter(self, ticket, task):
        if ticket in self.tasks:
            self.say("task-set", f"ticket {ticket} enters twice")
        self.tasks[ticket] = task
        task.ticket, task.live = ticket, True
        for tasks in self.lists(task):
            tasks[ticket] = task

    def enable(self, ticket):
        task = self.tasks.get(ticket)
        if task is None:
            self.say("task-set", f"ticket {ticket} is enabled before it enters")
            return
        if task.acknowledged:
            self.say("abort", f"ticket {ticket} is enabled after its abort was acknowledged")
        elif not task.live:
            self.say("task-set", f"ticket {ticket} is enabled after it left")
        elif task.enabled:
            self.say("task-set", f"ticket {ticket} is enabled twice")
        else:
            self.look_for_bar(task)
        task.enabled = True

    def look_for_bar(self, task):
        everything, ordered, heads = self.of(task.unit)
        if task.attribute == "head":
            return
        if heads:
            self.say("task-set", f"ticket {task.ticket} is enabled past a HEAD OF QUEUE command")
        if task.attribute == "simple" and ordered and next(iter(ordered)) < task.ticket:
            self.say("task-set", f"SIMPLE ticket {task.ticket} is enabled past an older ORDERED command")
        if task.attribute == "ordered" and next(iter(everything)) != task.ticket:
            self.say("task-set", f"ORDERED ticket {task.ticket} is enabled past an older command")

    def leave(self, task):
        task.live = False
        for tasks in self.lists(task):
            tasks.pop(task.ticket, None)
