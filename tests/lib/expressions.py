"""Random expressions over winding numbers."""
RELATIONS = ("<", "<=", "=", "!=", ">=", ">")


def random_expression(draw, meshes, depth=3):
    """A text of the grammar over so many meshes, at least one."""
    pick = draw.random()
    if depth == 0 or pick < 0.3:
        return _atom(draw, meshes)
    if pick < 0.4:
        return "!" + _grouped(draw, meshes, depth)
    left, right = _grouped(draw, meshes, depth), _grouped(draw, meshes, depth)
    return left + draw.choice("|^&") + right


def _grouped(draw, meshes, depth):
    part = random_expression(draw, meshes, depth - 1)
    return f"({part})" if draw.random() < 0.6 else part


def _atom(draw, meshes):
    pick = draw.random()
    if pick < 0.5:
        return "m%d" % draw.randint(1, meshes)
    if pick < 0.65:
        return f"odd({_sum(draw, meshes)})"
    return _sum(draw, meshes) + draw.choice(RELATIONS) + _sum(draw, meshes)


def _sum(draw, meshes):
    text = "-" if draw.random() < 0.2 else ""
    text += _term(draw, meshes)
    while draw.random() < 0.3:
        text += draw.choice("+-") + _term(draw, meshes)
    return text


def _term(draw, meshes):
    pick = draw.random()
    if pick < 0.5:
        return "w%d" % draw.randint(1, meshes)
    if pick < 0.7:
        return "%d*w%d" % (draw.choice((0, 1, 2, 3, 1000000)), draw.randint(1, meshes))
    return str(draw.choice((0, 1, 1, 2, 3, 1000000)))
