"""A chain of which each item stands with its line, for rows of imports over trees of blocks."""

import paying_chain
from make_first_blocks import joined


class Chain(paying_chain.Chain):
    """Each item with its line, and the tip after it: the first that is highest. `kept` has the blocks that joined, once each."""

    def __init__(self):
        super().__init__(w_close=1, w_far=10)
        self.kept, self.best = [self.genesis], [self.genesis]

    def says(self, block, line):
        self.items.append((block.item(), line))
        self.best.append(block if line == joined(block) and block.number > self.best[-1].number else self.best[-1])

    def joins(self, parent, **parts):
        block = self.block(parent=parent, **parts)
        self.says(block, joined(block))
        self.kept.append(block)
        return block

    def refuses(self, rule, parent, **parts):
        self.says(self.block(parent=parent, **parts), 'refused J%d' % rule)
