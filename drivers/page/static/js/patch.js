// A list of elements of which only those are made anew that have changed.

export class Patch {
  constructor(list) {
    this.list = list;
    this.kept = [];
  }

  // Each entry is [key, value, make]: the element is kept while key and value stay.
  show(entries) {
    const made = entries.map(([key, value, make], at) => {
      const old = this.kept[at];
      return old && old.key === key && old.value === value ? old : { key, value, element: make() };
    });
    for (const [at, { element }] of made.entries()) {
      if (this.list.children[at] !== element) this.list.insertBefore(element, this.list.children[at] ?? null);
    }
    while (this.list.children.length > made.length) this.list.lastChild.remove();
    this.kept = made;
  }
}
