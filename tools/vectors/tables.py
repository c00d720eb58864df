# Random node tables of several shapes, and the XML document of a table.
# A tree is a list [kind, name, children], an element's attributes first among
# its children; tables are flat lists of numbers.

ROOT, ELEMENT, TEXT, COMMENT, INSTRUCTION, ATTRIBUTE = range(6)


def element(name):
    return [ELEMENT, name, []]


def leaf(rng, names):
    kind = rng.pick([TEXT, TEXT, COMMENT, INSTRUCTION])
    return [kind, rng.pick(names) if kind == INSTRUCTION else 0, []]


def random_node(rng, names, leaves):
    if rng.chance(leaves):
        return leaf(rng, names)
    return element(rng.pick(names))


def chain_tree(rng, n, names, leaves):
    """Elements inside one another; now and then a leaf before or after."""
    top = here = element(rng.pick(names))
    made = 1
    while made < n:
        inner = element(rng.pick(names))
        made += 1
        here[2].append(inner)
        if made < n and rng.chance(leaves):
            extra = leaf(rng, names)
            here[2].insert(rng.below(2), extra)
            made += 1
        here = inner
    return top


def wide_tree(rng, n, names, leaves):
    top = element(rng.pick(names))
    top[2] = [random_node(rng, names, leaves) for _ in range(n - 1)]
    return top


def balanced_tree(rng, n, names, leaves, fan):
    top = element(rng.pick(names))
    made = 1
    layer = [top]
    while made < n:
        below = []
        for parent in layer:
            while made < n and len(parent[2]) < fan:
                child = random_node(rng, names, leaves)
                parent[2].append(child)
                made += 1
                if child[0] == ELEMENT:
                    below.append(child)
        if not below and made < n:
            extra = element(rng.pick(names))
            layer[-1][2].append(extra)
            below = [extra]
            made += 1
        layer = below
    return top


def random_tree(rng, n, names, leaves, recent):
    """Each node goes under a random element, or under one of the last few."""
    top = element(rng.pick(names))
    elements = [top]
    for _ in range(n - 1):
        window = min(len(elements), recent)
        parent = elements[len(elements) - 1 - rng.below(window)]
        child = random_node(rng, names, leaves)
        parent[2].insert(rng.below(len(parent[2]) + 1), child)
        if child[0] == ELEMENT:
            elements.append(child)
    return top


def parameter_tree(rng, n):
    """Sets of parameters: 1 set, 2 group, 3 parameter, 4 limit, 5 floor,
    6 ceiling, 7 unit."""
    top = element(1)
    made = 1
    group = None
    while made < n:
        if group is None or rng.chance(12):
            group = element(2)
            top[2].append(group)
            made += 1
            continue
        parts = [element(3)]
        for _ in range(rng.between(0, 3)):
            limit = element(4)
            parts[0][2].append(limit)
            parts.append(limit)
            for name in (5, 6, 7):
                if rng.chance(55):
                    part = element(name)
                    part[2].append([TEXT, 0, []])
                    limit[2].append(part)
                    parts += [part, part[2][0]]
        if rng.chance(20):
            parts[0][2].insert(0, [COMMENT, 0, []])
            parts.append(None)
        if made + len(parts) > n:
            group[2].append([INSTRUCTION, rng.between(1, 7), []])
            made += 1
        else:
            group[2].append(parts[0])
            made += len(parts)
    return top


def remark(rng, names):
    kind = rng.pick([COMMENT, INSTRUCTION])
    return [kind, rng.pick(names) if kind == INSTRUCTION else 0, []]


def aside(rng, names):
    """Comments and processing instructions beside the document element."""
    return [remark(rng, names) for _ in range(rng.pick([0, 0, 1, 1, 2]))]


def separate_texts(tree):
    """No two texts side by side: the second becomes a comment."""
    stack = [tree]
    while stack:
        children = stack.pop()[2]
        for before, after in zip(children, children[1:]):
            if before[0] == TEXT and after[0] == TEXT:
                after[0] = COMMENT
        stack.extend(children)


def part_texts(rng, tree, names):
    """No two texts side by side: a comment or an instruction comes between."""
    stack = [tree]
    while stack:
        node = stack.pop()
        parted = []
        for child in node[2]:
            if parted and parted[-1][0] == TEXT and child[0] == TEXT:
                parted.append(remark(rng, names))
            parted.append(child)
        node[2] = parted
        stack.extend(parted)


def nodes_of(tree):
    nodes = [tree]
    for node in nodes:
        nodes.extend(node[2])
    return nodes


def free_name(rng, node, names):
    """A name that none of the node's attributes has: one of these, or a number behind it."""
    taken = {child[1] for child in node[2] if child[0] == ATTRIBUTE}
    name = rng.pick(names)
    while name in taken:
        name = name % 65535 + 1
    return name


def add_attributes(rng, tree, names, count):
    """This many attributes, each before all else of a random element."""
    elements = [node for node in nodes_of(tree) if node[0] == ELEMENT]
    for _ in range(count):
        node = rng.pick(elements)
        node[2].insert(0, [ATTRIBUTE, free_name(rng, node, names), []])


def flatten(tree):
    """The table of a tree whose top is the root node."""
    table = []
    stack = [(tree, 0)]
    while stack:
        (kind, name, children), parent = stack.pop()
        row = len(table) // 4
        table += [kind, name, parent, 0]
        for child in reversed(children):
            stack.append((child, row))
    for row in range(len(table) // 4 - 1, 0, -1):
        table[4 * table[4 * row + 2] + 3] += table[4 * row + 3] + 1
    return table


def shaped_tree(rng, shape, n, names, leaves):
    """A document element of n nodes, itself counted."""
    if shape == "chain":
        return chain_tree(rng, n, names, leaves)
    if shape == "wide":
        return wide_tree(rng, n, names, leaves)
    if shape == "balanced":
        return balanced_tree(rng, n, names, leaves, rng.between(2, 4))
    if shape == "random":
        return random_tree(rng, n, names, leaves, rng.pick([3, 10, 1 << 30]))
    return parameter_tree(rng, n)


def make_tree(rng, shape, rows, names, leaves, share=0):
    """A document of this many nodes, the root counted; share percent of them
    are attributes."""
    attributes = min(rows * share // 100, rows - 2)
    others = rows - attributes
    before = aside(rng, names) if others > 6 else []
    after = aside(rng, names) if others > 6 else []
    top = shaped_tree(rng, shape, others - 1 - len(before) - len(after), names, leaves)
    tree = [ROOT, 0, before + [top] + after]
    separate_texts(tree)
    add_attributes(rng, tree, names, attributes)
    return tree


def make_table(rng, shape, rows, names, leaves, share=0):
    return flatten(make_tree(rng, shape, rows, names, leaves, share))


def some_share(rng):
    """No attributes, or some, or many."""
    return rng.pick([0, 0, 0, 20, 35, 50])


def has_attributes(table):
    return ATTRIBUTE in table[0::4]


def leafy_table(rng, n, names, attributes):
    """About as many leaves as elements; texts parted by comments and
    instructions, so there are some more rows than n and the attributes."""
    top = random_tree(rng, n, names, 50, rng.pick([2, 6, 1 << 30]))
    part_texts(rng, top, names)
    tree = [ROOT, 0, aside(rng, names) + [top] + aside(rng, names)]
    add_attributes(rng, tree, names, attributes)
    return flatten(tree)


def element_text(table, i):
    """The start tag of row i; its attributes stand right behind it."""
    names = []
    j = 4 * i + 4
    while j < len(table) and table[j] == ATTRIBUTE:
        names.append(table[j + 1])
        j += 4
    return "<e%d%s>" % (table[4 * i + 1], "".join(' e%d="v"' % name for name in names))


def leaf_text(kind, name):
    return {TEXT: "t", COMMENT: "<!--c-->", INSTRUCTION: "<?p%d d?>" % name, ATTRIBUTE: ""}[kind]


def xml_text(table):
    out = []
    open_elements = []
    for i in range(1, len(table) // 4):
        while open_elements and open_elements[-1][1] < i:
            out.append("</e%d>" % open_elements.pop()[0])
        kind, name, _, size = table[4 * i:4 * i + 4]
        out.append(element_text(table, i) if kind == ELEMENT else leaf_text(kind, name))
        if kind == ELEMENT:
            open_elements.append((name, i + size))
    while open_elements:
        out.append("</e%d>" % open_elements.pop()[0])
    return "".join(out)
