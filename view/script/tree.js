// JSON as a tree: numbers and strings as they are written, members that fold, and in what two trees differ.

const TOKENS = /"(?:[^"\\]|\\.)*"|[[\]{},:]|[^\s"[\]{},:]+/g;
const OPEN_LINES = 40; // lines of a tree that are open at first; of one that differs more
const OPEN_DIFFERENCES = 200;
const MEMBERS = 100; // members of one object or list that are shown at first, and further ones at a time
const SUMMARY = 60; // characters of a node that is folded
const INDENTED = 12; // levels that are indented; further ones say which they are

/** The tree of a JSON text: its nodes in order, each with its key as it is written, and its place in the text. */
function treeOf(text) {
  const top = { members: [], isObject: false, parent: null, level: -1 };
  const nodes = [];
  let node = top;
  let key = null;
  for (const { 0: token, index } of text.matchAll(TOKENS)) {
    if (token === "," || token === ":") continue;
    if (token === "]" || token === "}") {
      node.end = index + 1;
      node = node.parent;
    } else if (node.isObject && key === null) {
      key = token;
    } else {
      const isObject = token === "{";
      const members = isObject || token === "[" ? [] : null;
      const [place, level] = [node.members.length, node.level + 1];
      const made = { key, parent: node, place, level, members, isObject, start: index, end: index + token.length };
      node.members.push(made);
      nodes.push(made);
      key = null;
      if (members) node = made;
    }
  }
  return { text, nodes };
}

/** The path of a node from the top of its tree, as jq takes it. */
function pathOf(node) {
  const parts = [];
  for (; node.level > 0; node = node.parent) {
    const isName = node.key !== null && /^"[A-Za-z_]\w*"$/.test(node.key);
    parts.push(node.key === null ? `[${node.place}]` : isName ? `.${node.key.slice(1, -1)}` : `[${node.key}]`);
  }
  const path = parts.reverse().join("");
  return path.startsWith(".") ? path : `.${path}`;
}

/** Numbers the nodes of trees: those that are the same, except blanks and the order of members, have one number. */
function numberNodes(trees) {
  const known = new Map();
  for (const { text, nodes } of trees) {
    // what is in a node comes after it
    for (const node of nodes.toReversed()) {
      const isLeaf = node.members === null;
      const parts = node.members?.map(({ key, same }) => (node.isObject ? `${key}:${same}` : same));
      const of = isLeaf ? text.slice(node.start, node.end) : node.isObject ? `{${parts.sort()}` : `[${parts}`;
      if (!known.has(of)) known.set(of, known.size);
      node.same = known.get(of);
    }
  }
}

/** The members of two objects by their names; of one name the first with the first. */
function memberPairs(left, right) {
  const [inLeft, inRight] = [left, right].map((members) => Map.groupBy(members, ({ key }) => key));
  return [...new Set([...inLeft.keys(), ...inRight.keys()])].flatMap((key) => {
    const [some, others] = [inLeft.get(key) ?? [], inRight.get(key) ?? []];
    return pairsInOrder(some, others);
  });
}

const pairsInOrder = (some, others) =>
  Array.from({ length: Math.max(some.length, others.length) }, (_, place) => [some[place], others[place]]);

/** The elements of two lists: those that are the same in order, and between them the first with the first. */
function elementPairs(left, right) {
  const equals = equalPlaces(...[left, right].map((members) => Int32Array.from(members, ({ same }) => same)));
  if (equals === null) return pairsInOrder(left, right);
  return stepsBetween(left, right, equals, () => "same", (some, others) =>
    pairsInOrder(some, others).map((pair) => ({ kind: "changed", pair }))).map(({ pair }) => pair);
}

/**
 * What differs in two trees, by nodes: `changed`, with the part of a leaf that is; `only` in one of them; and `within`,
 * of nodes above these. Nothing where they differ only in blanks and in the order of members.
 */
function treeMarks(trees) {
  numberNodes(trees);
  const marks = new Map();
  const pairs = [trees.map(({ nodes }) => nodes[0])];
  while (pairs.length > 0) {
    const [one, other] = pairs.pop();
    if (!one || !other) {
      marks.set(one ?? other, { kind: "only" });
    } else if (one.same !== other.same) {
      const isAlike = one.members && other.members && one.isObject === other.isObject;
      if (isAlike) {
        const found = (one.isObject ? memberPairs : elementPairs)(one.members, other.members);
        for (const pair of found) pairs.push(pair);
      } else {
        const parts = differingParts(...[one, other].map(({ start, end }, side) => trees[side].text.slice(start, end)));
        [one, other].forEach((node, side) => marks.set(node, { kind: "changed", part: parts[side] }));
      }
    }
  }
  for (const node of [...marks.keys()]) {
    for (let above = node.parent; above.parent && !marks.has(above); above = above.parent) {
      marks.set(above, { kind: "within" });
    }
  }
  return marks;
}

/** The nodes that are open at first: those above what differs, otherwise from the top as many as there is room for. */
function openNodes({ nodes }, marks) {
  const open = new Set();
  let room = marks ? OPEN_DIFFERENCES : OPEN_LINES;
  const waiting = [nodes[0]];
  for (let place = 0; place < waiting.length && room > 0; place++) {
    const { members } = waiting[place];
    if (!members || (marks && marks.get(waiting[place])?.kind !== "within" && place > 0)) continue;
    room -= Math.min(members.length, MEMBERS);
    if (room < 0 && place > 0) break;
    open.add(waiting[place]);
    for (const member of members.slice(0, marks ? members.length : MEMBERS)) waiting.push(member);
  }
  return open;
}

/** The members that are shown at first, as ranges of their places: the first ones, or what differs with neighbours. */
function shownRanges({ members }, marks) {
  const marked = marks ? members.filter((member) => marks.has(member)).slice(0, MEMBERS) : [];
  if (marked.length === 0 || members.length <= MEMBERS) return [[0, Math.min(MEMBERS, members.length)]];
  const ranges = [];
  for (const { place } of marked) {
    const [start, end] = [Math.max(0, place - 1), Math.min(members.length, place + 2)];
    if (ranges.at(-1)?.[1] >= start) ranges.at(-1)[1] = end;
    else ranges.push([start, end]);
  }
  return ranges;
}

const leafClass = (text) => (text.startsWith('"') ? "string" : /^[-\d]/.test(text) ? "digits" : "word");

/** A tree that folds. `pathBefore` leads to its text, and begins what is copied as the path of a member. */
function treeNode(tree, pathBefore, marks = null) {
  const { text, nodes } = tree;
  const open = openNodes(tree, marks);
  const where = element("p", "where");

  /** Shows the path of a node in its line, above what is in it. */
  const showPath = (node, { currentTarget }) => {
    const line = currentTarget.parentNode;
    line.insertBefore(where, line.querySelector(":scope > .members"));
    const path = pathOf(node);
    fill(where, element("code", "", visible(path)),
      copyButton("path", () => `${pathBefore} | ${path}`),
      copyButton("value", () => text.slice(node.start, node.end)));
  };

  const leaf = ({ start, end }, mark) => {
    const own = text.slice(start, end);
    return foldedNode(own, leafClass(own), mark?.part, "span");
  };

  /** A node that is folded: how much it has, and its first characters. */
  const summary = ({ members, isObject, start, end }) => {
    const [first, last] = isObject ? "{}" : "[]";
    if (members.length === 0) return element("span", "bracket", first + last);
    const amount = counted(members.length, isObject ? "member" : "element");
    const beginning = text.slice(start, Math.min(end, start + SUMMARY)).replace(/\s+/g, " ");
    return [element("span", "bracket", `${first} ${amount} ${last} `), element("span", "form", visible(beginning))];
  };

  /** Members of a node in these ranges, and a button for what is between them. */
  const memberNodes = (node) => {
    const made = [];
    let before = 0;
    const gap = (from, to) => {
      if (from >= to) return;
      const button = buttonNode("more", () => {
        const end = Math.min(to, from + MEMBERS);
        button.before(...node.members.slice(from, end).map(lineNode));
        from = end;
        label();
      });
      const label = () => {
        button.textContent = `${counted(to - from, node.isObject ? "member" : "element")} more`;
        button.hidden = from >= to;
      };
      label();
      made.push(button);
    };
    for (const [start, end] of shownRanges(node, marks)) {
      gap(before, start);
      for (const member of node.members.slice(start, end)) made.push(lineNode(member));
      before = end;
    }
    gap(before, node.members.length);
    return made;
  };

  const lineNode = (node) => {
    const mark = marks?.get(node);
    const name = node.key ?? (node.level > 0 ? String(node.place) : null);
    const keyClass = node.key === null ? "key place" : "key";
    const key = name && [buttonNode(keyClass, (event) => showPath(node, event), visible(name)), ": "];
    const sign = mark && mark.kind !== "within" ? element("span", "sign", mark.kind === "only" ? "±" : "≠") : null;
    const className = `member ${mark?.kind ?? ""}`;
    if (node.members === null) return element("div", className, sign, element("span", "fold"), key, leaf(node, mark));
    if (node.members.length === 0) return element("div", className, sign, element("span", "fold"), key, summary(node));
    const body = element("div", node.level < INDENTED ? "members" : "members flat");
    const [short, close] = [element("span"), element("span", "bracket")];
    const fold = buttonNode("fold", () => set(fold.getAttribute("aria-expanded") !== "true"));
    const level = node.level < INDENTED ? null : element("span", "form", ` level ${node.level + 1}`);
    const set = (isOpen) => {
      fold.setAttribute("aria-expanded", isOpen);
      fold.setAttribute("aria-label", isOpen ? "Fold" : "Unfold");
      fold.textContent = isOpen ? "▾" : "▸";
      fill(short, isOpen ? [element("span", "bracket", node.isObject ? "{" : "["), level] : summary(node));
      fill(body, isOpen ? memberNodes(node) : []);
      fill(close, isOpen ? (node.isObject ? "}" : "]") : "");
    };
    set(open.has(node));
    return element("div", className, sign, fold, key, short, body, close);
  };

  return element("div", "tree", lineNode(nodes[0]));
}
