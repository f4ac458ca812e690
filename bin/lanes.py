"""Tasks side by side, where some wait for others and the longest chain of them decides when all are done."""
import os
import queue
import threading

# how much of the longest chain a task has to have behind it to be urgent
URGENT = 0.7
# the processes that an urgent task is given
JOBS = 4
# what each further process of a task takes, as a share of the memory of the first
FURTHER = 0.6
# how much less than urgent tasks the others are preferred by the system
NICE = 3


class Lanes:
    """Runs tasks: one a processor, as many as memory holds, each once those that it waits for have ended. Tasks of the longest chain of
    others behind them come first, with several processes each, and the system prefers them to the others.

    A task is what it waits for, its work, its memory in bytes, and a call that gets what was given and how many processes it may use.
    """

    def __init__(self, tasks, processors, memory):
        self.tasks, self.processors, self.memory = tasks, processors, memory
        self.given, self.running, self.ended = {}, {}, queue.Queue()
        self.behind = dict.fromkeys(tasks, 0)
        # (a task comes after those that it waits for)
        for key in reversed([*tasks]):
            self.behind[key] += tasks[key][1]
            for it in tasks[key][0]:
                self.behind[it] = max(self.behind[it], self.behind[key])
        self.left = sorted(tasks, key=lambda it: -self.behind[it])

    def run(self):
        """What each task gave, by its key."""
        while self.left or self.running:
            for key in [it for it in self.left if all(below in self.given for below in self.tasks[it][0])]:
                self.start(key)
            key, gave = self.ended.get()
            del self.running[key]
            self.given[key] = gave
        return self.given

    def start(self, key):
        """Starts a task, if there are a processor and memory for it."""
        _, _, needs, call = self.tasks[key]
        longest = max(self.behind[it] for it in [*self.left, *self.running])
        is_urgent = self.behind[key] >= URGENT * longest
        room = self.memory - sum(self.running.values())
        if len(self.running) >= self.processors or self.running and needs > room:
            return
        jobs = max(1, min(JOBS, self.processors, 1 + int((room / needs - 1) / FURTHER))) if is_urgent else 1
        self.left.remove(key)
        self.running[key] = needs * (1 + FURTHER * (jobs - 1))
        threading.Thread(target=self.work, args=(key, call, jobs, 0 if is_urgent else NICE), daemon=True).start()

    def work(self, key, call, jobs, nice):
        """Runs a task in a thread of its own, whose processes the system prefers less, and tells what it gave."""
        gave = None
        try:
            if nice:
                os.setpriority(os.PRIO_PROCESS, threading.get_native_id(), os.getpriority(os.PRIO_PROCESS, 0) + nice)
            gave = call(self.given, jobs)
        finally:
            self.ended.put((key, gave))
