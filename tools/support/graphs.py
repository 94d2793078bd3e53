"""What formulas that name areas of their own sheet come to in `order`, `cycles` and `dependents
--all` (docs/FORMAT.md), by another way than the program's and without an edge from cell to cell:
each question is one for the greatest number in an area, column by column.

A cell is its row and its column, and an area its first row and column and its last. Of formulas
there are their cells, row by row, and the areas that each names.
"""

from bisect import bisect_left, bisect_right

# Less than all numbers of formulas.
NONE = -1


class Greatest:
    """A number of each formula, and the greatest in areas. The formulas of a column, from above,
    are the leaves of a tree, a list in which node `n` has the greater of `2 * n` and `2 * n + 1`:
    the first node has the greatest of all, and the leaves are the second half."""

    def __init__(self, cells):
        rows = {}
        places = []
        for row, column in cells:
            own = rows.setdefault(column, [])
            places.append((column, len(own)))
            own.append(row)
        self.columns = sorted(rows)
        self.rows = [rows[column] for column in self.columns]
        trees = {column: [NONE] * (2 * len(own)) for column, own in rows.items()}
        self.trees = [trees[column] for column in self.columns]
        self.leaves = [(trees[column], len(rows[column]) + at) for column, at in places]

    def keep(self, formula, number):
        tree, node = self.leaves[formula]
        tree[node] = number
        while node > 1:
            node //= 2
            number = max(tree[2 * node], tree[2 * node + 1])
            if tree[node] == number:
                break
            tree[node] = number

    def of(self, areas):
        """The greatest number in areas."""
        found = NONE
        for top, left, bottom, right in areas:
            first, behind = bisect_left(self.columns, left), bisect_right(self.columns, right)
            for tree, rows in zip(self.trees[first:behind], self.rows[first:behind]):
                # No part of a column has more than the whole.
                if tree[1] > found:
                    between = bisect_left(rows, top), bisect_right(rows, bottom)
                    found = max(found, greatest_of_leaves(tree, *between))
        return found


def greatest_of_leaves(tree, first, behind):
    """The greatest number of the leaves from one on and before another."""
    found, half = NONE, len(tree) // 2
    first, behind = first + half, behind + half
    while first < behind:
        # A node that isn't its father's first son, or ends as a first one, stands for itself.
        if first % 2:
            found = max(found, tree[first])
            first += 1
        if behind % 2:
            behind -= 1
            found = max(found, tree[behind])
        first, behind = first // 2, behind // 2
    return found


def has(area, cell):
    top, left, bottom, right = area
    return top <= cell[0] <= bottom and left <= cell[1] <= right


def components_of(cells, named):
    """The formulas that need each other, each with all such, and those first that others need: by
    Tarjan's search. `ahead` has the formulas that it hasn't come to, and `held`, while a formula's
    component isn't known, how early it came to the earliest one that the formula leads to."""
    ahead, held, entered = Greatest(cells), Greatest(cells), {}
    for formula in range(len(cells)):
        ahead.keep(formula, formula)
    path, waiting = [], []
    for root in range(len(cells)):
        path += [] if root in entered else [root]
        while path:
            formula = path[-1]
            if formula not in entered:
                # What is entered earlier has the greater number.
                entered[formula] = len(cells) - len(entered)
                held.keep(formula, entered[formula])
                ahead.keep(formula, NONE)
                waiting.append(formula)
            following = ahead.of(named[formula])
            if following != NONE:
                path.append(following)
                continue
            path.pop()
            earliest = max(entered[formula], held.of(named[formula]))
            held.keep(formula, earliest)
            if earliest == entered[formula]:
                component = []
                while formula not in component[-1:]:
                    component.append(waiting.pop())
                    held.keep(component[-1], NONE)
                yield sorted(component)


def is_cycle(component, cells, named):
    """Whether the formulas of a component need themselves."""
    first = component[0]
    return len(component) > 1 or any(has(area, cells[first]) for area in named[first])


def rounds_of(cells, named, components):
    """The round of each formula that can be computed, from 0 on."""
    rounds, endless, found = Greatest(cells), len(cells), {}
    for component in components:
        around = is_cycle(component, cells, named)
        for formula in component:
            own = endless if around else min(rounds.of(named[formula]) + 1, endless)
            rounds.keep(formula, own)
            if own < endless:
                found[formula] = own
    return found


def reference(cell):
    row, column = cell
    letters = ""
    while column:
        column, digit = divmod(column - 1, 26)
        letters = chr(65 + digit) + letters
    return f"{letters}{row}"


class Graph:
    """Formulas on a sheet `S`, by their cells and the areas that each names, and what is found."""

    def __init__(self, cells, named):
        self.cells, self.named = cells, named
        self.components = list(components_of(cells, named))
        self.rounds = rounds_of(cells, named, self.components)
        self.cycles = sorted(own for own in self.components if is_cycle(own, cells, named))

    def placed(self, formula):
        """By what formulas are in order."""
        return self.rounds[formula], formula

    def dependents(self, cell):
        """The formulas that need a cell, themselves or through others."""
        needing, found = Greatest(self.cells), []
        for component in self.components:
            areas = [area for formula in component for area in self.named[formula]]
            if any(has(area, cell) for area in areas) or needing.of(areas) != NONE:
                found += component
                for formula in component:
                    needing.keep(formula, 0)
        return sorted(found)

    def lines(self):
        """What `order`, `cycles` and `dependents S A1 --all` print."""
        names = [f"'S'!{reference(cell)}" for cell in self.cells]
        order = [names[formula] for formula in sorted(self.rounds, key=self.placed)]
        on_cycle = {formula for cycle in self.cycles for formula in cycle}
        for formula, name in enumerate(names):
            if formula not in self.rounds:
                order.append(f"{name}\t{'cycle' if formula in on_cycle else 'behind'}")
        return {
            "order": lines_of(order),
            "cycles": lines_of("\t".join(names[own] for own in cycle) for cycle in self.cycles),
            "dependents": lines_of(names[formula] for formula in self.dependents((1, 1))),
        }


def lines_of(texts):
    return "".join(f"{text}\n" for text in texts)
