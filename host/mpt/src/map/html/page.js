"use strict";
// The panel tells of the cell that is pointed at; a click keeps it there, another lets it go.
const panel = document.getElementById("panel");
let pinned = null;

function line(text) {
  panel.append(text, document.createElement("br"));
}

function tell(cell) {
  panel.textContent = "";
  line(cell.closest("[data-name]").dataset.name + ": " + cell.dataset.at);
  line("permission: " + cell.dataset.permission);
  if (cell.dataset.entry) line(cell.dataset.entry);
  if (cell.dataset.pieces) {
    panel.append("its 2 MiB pieces: ");
    for (const letter of cell.dataset.pieces) {
      const piece = document.createElement("i");
      const strongest = ".xwa".indexOf(letter.toLowerCase());
      piece.className = "c s" + strongest + (letter === letter.toLowerCase() ? "" : " mixed");
      piece.textContent = letter;
      panel.append(piece);
    }
    line("");
  }
  if (cell.dataset.ranges) panel.append("open in it: " + cell.dataset.ranges);
}

document.addEventListener("pointerover", (event) => {
  const cell = event.target.closest("[data-at]");
  if (cell && !pinned) tell(cell);
});

document.addEventListener("click", (event) => {
  if (panel.contains(event.target)) return;
  const cell = event.target.closest("[data-at]");
  if (pinned) pinned.classList.remove("pinned");
  pinned = cell === pinned ? null : cell;
  if (pinned) {
    pinned.classList.add("pinned");
    tell(pinned);
  }
});
