// Sorts and filters tables, and moves and enlarges the picture. Without it the pages can be read as they are.
"use strict";

function textOf(row, column) {
  return row.cells[column].textContent.trim();
}

function compared(one, other) {
  return one.localeCompare(other, "en", { numeric: true, sensitivity: "base" });
}

function sortBy(table, column) {
  const heading = table.tHead.rows[0].cells[column];
  const way = heading.getAttribute("aria-sort") === "ascending" ? -1 : 1;
  for (const each of table.tHead.rows[0].cells) each.removeAttribute("aria-sort");
  heading.setAttribute("aria-sort", way === 1 ? "ascending" : "descending");
  const rows = [...table.tBodies[0].rows];
  rows.sort((one, other) => way * compared(textOf(one, column), textOf(other, column)));
  table.tBodies[0].append(...rows);
}

function makeSorted(table) {
  [...table.tHead.rows[0].cells].forEach((heading, column) => {
    const button = document.createElement("button");
    button.type = "button";
    button.className = "sort";
    button.append(...heading.childNodes);
    button.addEventListener("click", () => sortBy(table, column));
    heading.append(button);
  });
}

function makeFilter(input) {
  input.closest("[hidden]").hidden = false;
  input.addEventListener("input", () => {
    const wanted = input.value.toLowerCase();
    for (const row of document.querySelectorAll(`${input.dataset.filter} tbody tr`)) {
      row.hidden = !row.textContent.toLowerCase().includes(wanted);
    }
  });
}

// The names at the left and the revisions at the top stay in sight: copies of them lie over the picture.
function overlay(svg, box, chosen, name) {
  const found = svg.cloneNode(false);
  found.setAttribute("class", name);
  found.setAttribute("aria-hidden", "true");
  for (const each of chosen) found.append(each.cloneNode(true));
  box.append(found);
  return found;
}

class Picture {
  constructor(box) {
    this.box = box;
    this.svg = box.querySelector("svg");
    this.size = [Number(this.svg.getAttribute("width")), Number(this.svg.getAttribute("height"))];
    const names = [...this.svg.querySelectorAll("text.left")].map((text) => text.closest("a") || text);
    const first = Math.min(...names.map((each) => each.getBBox().y), this.size[1]);
    const marks = [...this.svg.querySelectorAll("text.small")].filter((each) => each.getBBox().y < first);
    this.names = overlay(this.svg, box, names, "names-in-sight");
    this.marks = overlay(this.svg, box, marks, "revisions-in-sight");
    this.right = Math.max(...names.map((each) => each.getBBox().x + each.getBBox().width), 0) + 4;
    this.top = Math.max(...marks.map((each) => each.getBBox().y + each.getBBox().height), 0) + 4;
    box.addEventListener("scroll", () => this.place());
    box.addEventListener("pointerdown", (event) => this.drag(event));
    this.zoom(0);
  }

  zoom(factor) {
    this.factor = factor ? Math.min(Math.max(this.factor * factor, 0.1), 10) : 1;
    for (const each of [this.svg, this.names, this.marks]) {
      each.setAttribute("width", this.size[0] * this.factor);
      each.setAttribute("height", this.size[1] * this.factor);
    }
    this.place();
  }

  place() {
    const [x, y] = [this.box.scrollLeft, this.box.scrollTop];
    this.names.style.transform = `translateX(${x}px)`;
    this.names.style.clipPath = `inset(0 calc(100% - ${this.right * this.factor}px) 0 0)`;
    this.names.style.display = x > 0 ? "block" : "none";
    this.marks.style.transform = `translateY(${y}px)`;
    this.marks.style.clipPath = `inset(0 0 calc(100% - ${this.top * this.factor}px) 0)`;
    this.marks.style.display = y > 0 ? "block" : "none";
  }

  drag(event) {
    if (event.button !== 0 || event.target.closest("a")) return;
    const start = [event.clientX + this.box.scrollLeft, event.clientY + this.box.scrollTop];
    const move = (now) => this.box.scrollTo(start[0] - now.clientX, start[1] - now.clientY);
    const end = () => {
      window.removeEventListener("pointermove", move);
      window.removeEventListener("pointerup", end);
    };
    window.addEventListener("pointermove", move);
    window.addEventListener("pointerup", end);
    event.preventDefault();
  }
}

function makePicture(box) {
  const picture = new Picture(box);
  for (const button of document.querySelectorAll("[data-zoom]")) {
    button.closest(".zoom").hidden = false;
    button.addEventListener("click", () => picture.zoom(Number(button.dataset.zoom)));
  }
}

document.querySelectorAll("table.sorted").forEach(makeSorted);
document.querySelectorAll("[data-filter]").forEach(makeFilter);
document.querySelectorAll(".picture:has(svg)").forEach(makePicture);
