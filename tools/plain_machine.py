"""The plain machine once more, by hand from docs/CALLS.md: a call of nested nodes, and what each event makes it do."""

RETRIED = {1009, 112, 111, 104, 32, 2003, 2004}
GREATEST = 2**64 - 1


# ---- channels: ("leaf", servers, retry, backup, timeout), ("par", fail, ok, timeout, [(chan, map, merge)]),
#      ("sel", retry, timeout, chans), ("part", parts, retry, backup, fail, ok, timeout, map, merge, [(server, part, of)])

class Node:
    """A node of a call: its channel's rule, its children, and how it stands."""

    def __init__(self, call, parent, kind):
        self.call, self.parent, self.kind = call, parent, kind
        self.number = len(call.nodes)
        self.started, self.end, self.children = False, None, []
        call.nodes.append(self)


def built(call, parent, chans, index):
    chan = chans[index]
    node = Node(call, parent, chan[0])
    if chan[0] == "leaf":
        node.servers, node.retry, node.backup, node.timeout = chan[1:]
    elif chan[0] == "par":
        node.fail, node.ok, node.timeout = chan[1:4]
        node.maps = [m for _, m, _ in chan[4]]
        node.merges = [g for _, _, g in chan[4]]
        node.children = [built(call, node, chans, c) for c, _, _ in chan[4]]
    elif chan[0] == "sel":
        retry, node.timeout, subs = chan[1:]
        node.children = [built(call, node, chans, subs[(call.number + j) % len(subs)]) for j in range(retry + 1)]
    else:
        parts, retry, backup, node.fail, node.ok, node.timeout, m, g, tags = chan[1:]
        node.kind = "par"
        node.maps, node.merges = [m] * parts, [g] * parts
        for n in range(parts):
            leaf = Node(call, node, "leaf")
            leaf.servers = [s for s, p, of in tags if (p, of) == (n, parts)]
            leaf.retry, leaf.backup, leaf.timeout = retry, backup, None
            node.children.append(leaf)
    return node


def mapped(how, index, request):
    """The request of a sub, or 'skip' or 'bad'."""
    if how == "same":
        return ("ask", request)
    if how == "index":
        return ("ask", request + str(index))
    if how == "split":
        pieces = request.split(",")
        return ("ask", pieces[index]) if index < len(pieces) else ("skip",)
    return (how,)


def is_number(text):
    return text.isascii() and text.isdigit() and (text == "0" or text[0] != "0") and int(text) <= GREATEST


def merged(how, value, part):
    """The next value, or 'fail' or 'all'."""
    if how == "cat":
        return ("value", (value or "") + part)
    if how == "same":
        return ("value", part) if value is None or value == part else ("all",)
    if how == "drop" or not is_number(part):
        return ("fail",)
    if value is None:
        return ("value", part)
    if not is_number(value) or int(value) + int(part) > GREATEST:
        return ("fail",)
    return ("value", str(int(value) + int(part)))


class Call:
    def __init__(self, chans, number, chan, request, moment):
        self.number, self.nodes, self.request = number, [], request
        self.sends, self.marks = [], []
        self.chans, self.chan, self.begun = chans, chan, moment
        self.root = built(self, None, chans, chan)
        self.start(self.root, request, moment)
        self.waiting, self.log = sorted(self.marks), []
        self.first = self.taken()

    def taken(self):
        """What came about since it was asked last."""
        done = (self.sends, self.marks, self.root.end is not None)
        self.sends, self.marks = [], []
        return done

    def attempts(self):
        return sum(n.issued for n in self.nodes if n.kind == "leaf" and n.started)

    # ---- starts

    def start(self, node, request, moment):
        node.started, node.request = True, request
        if node.timeout is not None:
            self.marks.append((moment + node.timeout, node.number, 0))
        if node.kind == "leaf":
            if node.backup is not None:
                self.marks.append((moment + node.backup, node.number, 1))
            node.issued, node.current, node.older, node.backed = 0, None, None, False
            self.issue(node)
        elif node.kind == "sel":
            node.tried = 0
            self.start(node.children[0], request, moment)
        else:
            node.asked = [mapped(m, i, request) for i, m in enumerate(node.maps)]
            node.n = sum(a[0] == "ask" for a in node.asked)
            node.F = min(node.fail, node.n) if node.fail else node.n
            node.K = min(node.ok, node.n) if node.ok else node.n
            if any(a[0] == "bad" for a in node.asked):
                self.ended(node, ("bad", 1003), moment)
            elif node.n == 0:
                self.ended(node, ("bad", 125), moment)
            else:
                for child, asked in zip(node.children, node.asked):
                    if asked[0] == "ask" and node.end is None:
                        self.start(child, asked[1], moment)

    def issue(self, leaf):
        leaf.current, leaf.issued = leaf.issued, leaf.issued + 1
        server = leaf.servers[(self.number + leaf.current) % len(leaf.servers)]
        self.sends.append((leaf.number, leaf.current, server, leaf.request))

    # ---- ends

    def ended(self, node, end, moment):
        node.end = end
        up = node.parent
        if up is None or up.end is not None:
            return
        if up.kind == "sel":
            if end[0] == "good" or end[1] == 1003 or up.tried + 1 == len(up.children):
                self.ended(up, end, moment)
            else:
                up.tried += 1
                self.start(up.children[up.tried], up.request, moment)
            return
        ends = [c.end[0] for c in up.children if c.end is not None]
        bads, goods = ends.count("bad"), ends.count("good")
        if bads >= up.F:
            self.ended(up, ("bad", 1005), moment)
        elif goods >= up.K or goods + bads >= up.n:
            self.ended(up, self.fold(up, bads), moment)

    def fold(self, par, fails):
        value = None
        for child, how in zip(par.children, par.merges):
            if child.end is None or child.end[0] == "bad":
                continue
            answer = merged(how, value, child.end[1])
            if answer[0] == "value":
                value = answer[1]
            elif answer[0] == "all":
                return ("bad", 2002)
            else:
                fails += 1
                if fails == par.F:
                    return ("bad", 1005)
        return ("good", value or "")

    # ---- events: ("reply", node, attempt, code, text), ("lost", node, attempt, code), ("backup", node), ("deadline", node), ("cancel",)

    def apply(self, event, moment):
        if event[0] == "cancel":
            if self.root.end is None:
                self.root.end = ("bad", 125)
        elif event[1] < len(self.nodes):
            self.at(self.nodes[event[1]], event, moment)
        done = self.taken()
        self.waiting = sorted(self.waiting + done[1])
        self.log.append((moment, event, done))
        return done

    def at(self, node, event, moment):
        up = node
        while up is not None:
            if not up.started or up.end is not None:
                return
            up = up.parent
        if node.kind == "leaf":
            self.leaf(node, event, moment)
        elif event[0] == "deadline" and node.kind == "sel":
            self.ended(node, ("bad", 1008), moment)
        elif event[0] == "deadline":
            goods = sum(c.end is not None and c.end[0] == "good" for c in node.children)
            fails = node.n - goods
            self.ended(node, ("bad", 1008) if fails >= node.F else self.fold(node, fails), moment)

    def leaf(self, leaf, event, moment):
        left = leaf.issued < leaf.retry + 1
        if event[0] == "deadline":
            self.ended(leaf, ("bad", 1008), moment)
        elif event[0] == "backup":
            if left and not leaf.backed:
                leaf.backed, leaf.older = True, leaf.current
                self.issue(leaf)
        elif event[2] not in (leaf.current, leaf.older):
            pass
        elif event[0] == "reply" and event[3] == 0:
            self.ended(leaf, ("good", event[4]), moment)
        elif event[2] == leaf.older:
            leaf.older = None
        elif left and event[3] in RETRIED:
            self.issue(leaf)
        else:
            self.ended(leaf, ("bad", event[3]), moment)

    # ---- marks between events

    def take(self):
        moment, node, backup = self.waiting.pop(0)
        self.apply(("backup" if backup else "deadline", node), moment)
        return moment

    def weave(self, moment):
        while self.waiting and self.waiting[0][0] <= moment:
            self.take()

    def finish(self, reached):
        while self.waiting and self.root.end is None:
            reached = max(reached, self.take())
        return reached
