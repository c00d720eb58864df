# The known errors of libxml2 (docs/ENGINES.md), each as the axes it has instead
# of the Recommendation's.
import meaning


class WithoutFirst(meaning.Tree):
    """On preceding:: the first child of the root is left out where that has
    children."""

    def axis(self, i, axis):
        nodes = super().axis(i, axis)
        if axis == 8 and self.children[1]:
            return [n for n in nodes if n != 1]
        return nodes


class ElementsFollowing(meaning.Tree):
    """following:: of an attribute is that of its element."""

    def axis(self, i, axis):
        if axis == 7 and self.kind[i] == meaning.ATTRIBUTE:
            i = self.parent[i]
        return super().axis(i, axis)


class Both(WithoutFirst, ElementsFollowing):
    pass


ERRORS = {"preceding": WithoutFirst, "following": ElementsFollowing, "both": Both}


def explains(tree, case):
    """Whether libxml2's answer is exactly what these axes make of the path."""
    evaluator = meaning.Evaluator(case["edition"], case["table"], case["path"], case["literals"])
    evaluator.tree = tree(case["table"], case["edition"])
    return evaluator.select(case["start"]) == case["libxml2"]


def cause(case):
    """The error that libxml2's answer comes from, or None; pugixml has to be right."""
    if case["pugixml"] != case["guess"]:
        return None
    return next((name for name, tree in ERRORS.items() if explains(tree, case)), None)
