// Tables that write a cell only if its text changes.

const byId = (id) => document.getElementById(id);

function made(tag, text = "") {
  const element = document.createElement(tag);
  element.textContent = text;
  return element;
}

class Table {
  constructor(element, heads) {
    this.body = element.querySelector("tbody");
    this.width = heads.length;
    this.rows = [];
    this.shown = [];
    const head = element.querySelector("thead");
    if (!head) return;
    const row = head.appendChild(document.createElement("tr"));
    for (const text of heads) row.appendChild(made("th", text)).scope = "col";
  }

  // Shows these rows of texts. Of a cell that isn't as it was before, a sign says so.
  show(rows, before = rows) {
    while (this.rows.length < rows.length) this.grow();
    this.rows.forEach(({ row }, at) => (row.hidden = at >= rows.length));
    rows.forEach((texts, at) => this.showRow(at, texts, before[at] || texts));
  }

  grow() {
    const row = this.body.appendChild(document.createElement("tr"));
    const cells = Array.from({ length: this.width }, (_, at) => {
      const cell = row.appendChild(document.createElement(at ? "td" : "th"));
      if (!at) cell.scope = "row";
      return cell;
    });
    this.rows.push({ row, cells });
    this.shown.push([]);
  }

  showRow(at, texts, before) {
    const { cells } = this.rows[at];
    const shown = this.shown[at];
    texts.forEach((text, column) => {
      const key = text === before[column] ? text : `*${text}`;
      if (shown[column] === key) return;
      shown[column] = key;
      cells[column].textContent = text;
      cells[column].classList.toggle("changed", text !== before[column]);
    });
  }
}
