// The tree of stacks that a flame graph draws: each node has what the stacks below it come to.

class Node {
  constructor(parent, key, name, depth) {
    this.parent = parent;
    this.key = key;
    this.name = name;
    this.depth = depth;
    this.value = this.self = this.other = this.otherSelf = 0;
    this.children = new Map();
  }

  child(key, name) {
    let found = this.children.get(key);
    if (!found) {
      found = new Node(this, key, name, this.depth + 1);
      this.children.set(key, found);
    }
    return found;
  }

  sorted() {
    if (!this.order) this.order = [...this.children.values()].sort((a, b) => b.value - a.value || (a.name < b.name ? -1 : 1));
    return this.order;
  }

  path() { return this.parent ? [...this.parent.path(), this.name] : []; }
}

// What a stack is in the tree, from the root on: keys with names.
function pathOf(stack, by, inverted) {
  const path = [], begin = col.stackBegin[stack], end = col.stackBegin[stack + 1];
  for (let at = end - 1; at >= begin; at--) {
    const frame = col.stackFrame[at], fn = col.frameFunction[frame];
    if (by === "line") path.push([frame, frameText(frame)]);
    else if (by === "package") {
      const name = packageOf(meta.functions[fn]);
      if (!path.length || path[path.length - 1][1] !== name) path.push(["p" + name, name]);
    } else path.push([fn, meta.functions[fn]]);
  }
  if (inverted) path.reverse();
  if (by === "type") path.unshift(["t" + col.stackType[stack], meta.types[col.stackType[stack]]]);
  return path;
}

// The tree of what the stacks come to, and of what they come to by another count.
function treeOf(weights, by, inverted, others = null) {
  const root = new Node(null, "", "all", 0);
  for (let stack = 0; stack < weights.length; stack++) {
    const other = others ? others[stack] : 0;
    if (!(weights[stack] > 0) && !(other > 0)) continue;
    const node = nodeOf(root, stack, by, inverted);
    node.self += Math.max(weights[stack], 0);
    node.otherSelf += Math.max(other, 0);
  }
  return summedTree(root);
}

function nodeOf(root, stack, by, inverted) {
  let node = root;
  for (const [key, name] of pathOf(stack, by, inverted)) node = node.child(key, name);
  return node;
}

function summedTree(root) {
  const order = [root];
  for (const node of order) order.push(...node.children.values());
  for (const node of order.reverse()) {
    node.value += node.self;
    node.other += node.otherSelf;
    if (node.parent) {
      node.parent.value += node.value;
      node.parent.other += node.other;
    }
  }
  return root;
}

// The tree of pinned bytes: each span that is kept belongs to the node under which all its objects were allocated.
function pinnedTree(at, by, inverted) {
  const root = new Node(null, "", "all", 0), heap = heapAt(at), nodes = new Map();
  for (let span = 0; span < heap.count; span++) {
    let common = null;
    for (const stack of heap.stacksIn(span)) {
      if (!nodes.has(stack)) nodes.set(stack, nodeOf(root, stack, by, inverted));
      common = common ? above(common, nodes.get(stack)) : nodes.get(stack);
    }
    if (common) common.self += heap.pages[span] * meta.page;
  }
  return summedTree(root);
}

// The lowest node over both.
function above(one, other) {
  while (one !== other) {
    if (one.depth >= other.depth) one = one.parent;
    else other = other.parent;
  }
  return one;
}
