"""What callgrind counted, for ./bench."""
import collections
import re


class Profile:
    """What callgrind counted: the instructions of each function itself, and of its calls by callee."""

    def __init__(self, path):
        self.names, self.own, self.calls = {}, collections.Counter(), collections.defaultdict(collections.Counter)
        function = callee = None
        for line in open(path):
            name = re.match(r'(c?fn)=\((\d+)\)(?: (.*))?', line)
            if name:
                if name[3]:
                    self.names[name[2]] = name[3]
                if name[1] == 'fn':
                    function = name[2]
                else:
                    callee = name[2]
            elif re.match(r'[-+*\d]', line):
                cost = int(line.split()[1])
                if callee:
                    self.calls[function][callee] += cost
                else:
                    self.own[function] += cost
                callee = None

    def function(self, name):
        return next(number for number, known in self.names.items() if known == name)

    def total(self, name):
        """The instructions of the function and all that it calls."""
        function = self.function(name)
        return self.own[function] + sum(self.calls[function].values())

    def called(self, caller, name):
        """The instructions of the function, and all that it calls, when this one calls it."""
        return self.calls[self.function(caller)][self.function(name)]

    def reached(self, name):
        """The functions that it reaches, with their own instructions, the largest first. Of one that others call too, as memset, all
        that it took when called from here."""
        root = self.function(name)
        found = todo = {root}
        while todo:
            todo = {callee for function in todo for callee in self.calls[function]} - found
            found = found | todo
        shared = {callee for function in self.calls.keys() - found for callee in self.calls[function]} - {root}
        cost = {number: sum(self.calls[function][number] for function in found) if number in shared else self.own[number]
                for number in found}
        return sorted(((cost[number], self.names[number]) for number in found), reverse=True)
