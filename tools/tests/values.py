"""The values of a tree as Python has them."""
from rdbg.tree import Node, Number, Object


def plain(node: Node) -> object:
    """A value of the tree as `json.loads` gives it."""
    value = node.value
    if isinstance(value, Number):
        natural = value.natural()
        return float(value.text) if natural is None else natural
    if isinstance(value, tuple):
        return [plain(each) for each in value]
    if isinstance(value, Object):
        return {member.key: plain(member.node) for member in value.members}
    return value
