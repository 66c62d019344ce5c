// Sorts the table of all prefixes by a click on a column, and shows the rows that contain some text.
const table = document.querySelector("table.all");
if (table) {
  const body = table.tBodies[0];
  const key = (row, i) => {
    const cell = row.cells[i];
    return cell.className === "n" ? Number(cell.textContent.replaceAll("\u202f", "")) : cell.textContent;
  };
  [...table.tHead.rows[0].cells].forEach((head, i) => head.firstElementChild.addEventListener("click", () => {
    const sorted = head.getAttribute("aria-sort"), down = sorted !== "descending" && (sorted === "ascending" || head.className === "n");
    for (const other of table.tHead.rows[0].cells) other.removeAttribute("aria-sort");
    head.setAttribute("aria-sort", down ? "descending" : "ascending");
    const keyed = [...body.rows].map((row) => [key(row, i), row]);
    keyed.sort(([x], [y]) => typeof x === "number" ? x - y : x.localeCompare(y));
    body.append(...(down ? keyed.reverse() : keyed).map(([, row]) => row));
  }));
  document.querySelector("input").addEventListener("input", (event) => {
    const wanted = event.target.value.toLowerCase();
    for (const row of body.rows) row.hidden = !row.cells[0].textContent.toLowerCase().includes(wanted);
  });
}
