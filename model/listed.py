"""Lists that only grow, so that what was worked out of a front of one needn't be worked out again."""
import functools


class Listed:
    """A list. One with an element more is another list, which knows the one before."""

    def __init__(self, before=None, items=()):
        self.before, self.items = before, items

    def __iter__(self):
        return iter(self.items)

    def __len__(self):
        return len(self.items)

    @property
    def last(self):
        """Its last element."""
        return self.items[-1]

    def having(self, *more):
        """The list with these elements behind it."""
        longer = self
        for item in more:
            longer = Listed(longer, longer.items + (item,))
        return longer


def remembered(function):
    """A function of a configuration and of a list, or an arrival, in whose `memo` it keeps what it answered, so that it answers the
    same question only once."""
    @functools.wraps(function)
    def answer(cfg, items, *others):
        memo, question = vars(items).setdefault("memo", {}), (function, cfg, others)
        if question not in memo:
            memo[question] = function(cfg, items, *others)
        return memo[question]
    return answer


def each_after(function, cfg, items, remember):
    """What the function gives for each element, told of those before it; `remember` is the definition that asks for it."""
    return [*remember(cfg, items.before), *function(cfg, items.before, items.last)] if len(items) else []
